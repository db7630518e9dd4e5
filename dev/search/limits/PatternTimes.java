import java.nio.charset.StandardCharsets;
import java.nio.file.Files;
import java.nio.file.Paths;
import org.relaxng.datatype.Datatype;
import org.relaxng.datatype.DatatypeBuilder;

/**
 * Times of jing's datatype `string` with the facet `pattern`, which is `java.util.regex` behind a translation:
 *
 *     java -cp jing.jar:FOLDER PatternTimes EXPRESSION TEXT COUNT
 *
 * The first two are files; the facet is written COUNT times. It prints a line for the expression and one for the text: the milliseconds, and `taken` or
 * `refused`, `valid` or `invalid`, or the name of an error, such as StackOverflowError.
 */
public class PatternTimes {
    static long start;

    static void told(String what) {
        System.out.println(String.format("%.3f %s", (System.nanoTime() - start) / 1e6, what));
        System.out.flush();
    }

    static String read(String path) throws Exception {
        return new String(Files.readAllBytes(Paths.get(path)), StandardCharsets.UTF_8);
    }

    public static void main(String[] words) throws Exception {
        String expression = read(words[0]);
        String text = read(words[1]);
        DatatypeBuilder builder = new com.thaiopensource.datatype.xsd.DatatypeLibraryFactoryImpl()
            .createDatatypeLibrary("http://www.w3.org/2001/XMLSchema-datatypes").createDatatypeBuilder("string");
        Datatype datatype;
        start = System.nanoTime();
        try {
            for (int time = 0; time < Integer.parseInt(words[2]); time++) {
                builder.addParameter("pattern", expression, null);
            }
            datatype = builder.createDatatype();
            told("taken");
        } catch (org.relaxng.datatype.DatatypeException fault) {
            told("refused");
            return;
        } catch (Error | RuntimeException fault) {
            told(fault.getClass().getSimpleName());
            return;
        }
        start = System.nanoTime();
        try {
            told(datatype.isValid(text, null) ? "valid" : "invalid");
        } catch (Error | RuntimeException fault) {
            told(fault.getClass().getSimpleName());
        }
    }
}
