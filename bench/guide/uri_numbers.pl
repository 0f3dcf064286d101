# Writes each $0 that is a URI of id.loc.gov as a number, as (DLC)n79021164: perl uri_numbers.pl IN >OUT
# It needs MARC::Record (Debian: libmarc-record-perl) and records in UTF-8.
use strict;
use warnings;
use MARC::File::USMARC;

my $file = MARC::File::USMARC->in($ARGV[0]) or die "$ARGV[0]: $MARC::File::ERROR\n";
binmode(STDOUT, ':utf8');
while (my $record = $file->next()) {
    die "a record isn't in UTF-8\n" unless $record->encoding() eq 'UTF-8';
    for my $field (grep { !$_->is_control_field() } $record->fields()) {
        my @parts = map {
            my ($code, $text) = @$_;
            $text =~ s{^https?://id\.loc\.gov/authorities/(?:names|subjects)/(\w+)$}{(DLC)$1} if $code eq '0';
            ($code, $text);
        } $field->subfields();
        $field->replace_with(MARC::Field->new($field->tag(), $field->indicator(1), $field->indicator(2), @parts));
    }
    print $record->as_usmarc();
}
