# Reads a file by MARC::Record and writes each record back: perl write_back.pl IN OUT
use strict;
use warnings;
use MARC::File::USMARC;

my ($in, $out) = @ARGV;
my $file = MARC::File::USMARC->in($in) or die "$in: $MARC::File::ERROR\n";
open(my $to, '>:utf8', $out) or die "$out: $!\n";
my $count = 0;
while (my $record = $file->next()) {
    $count++;
    print STDERR "MARC::Record: $in, record $count: $_\n" for $record->warnings();
    print {$to} $record->as_usmarc();
}
close($to) or die "$out: $!\n";
print "$count\n";
