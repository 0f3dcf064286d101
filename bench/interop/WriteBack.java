// Reads a file by marc4j and writes each record back: java -cp marc4j.jar WriteBack.java IN OUT
import java.io.FileInputStream;
import java.io.FileOutputStream;
import org.marc4j.MarcStreamReader;
import org.marc4j.MarcStreamWriter;

public class WriteBack {
    public static void main(String[] words) throws Exception {
        int count = 0;
        try (FileInputStream in = new FileInputStream(words[0]); FileOutputStream out = new FileOutputStream(words[1])) {
            MarcStreamReader reader = new MarcStreamReader(in, "UTF8");
            MarcStreamWriter writer = new MarcStreamWriter(out, "UTF8");
            while (reader.hasNext()) {
                writer.write(reader.next());
                count++;
            }
            writer.close();
        }
        System.out.println(count);
    }
}
