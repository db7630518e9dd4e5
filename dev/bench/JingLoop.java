import com.thaiopensource.util.PropertyMapBuilder;
import com.thaiopensource.validate.ValidationDriver;
import com.thaiopensource.validate.rng.CompactSchemaReader;
import java.io.File;

/**
 * Judges documents by jing in one running Java machine:
 *
 *     java -cp jing.jar JingLoop.java SCHEMA.rnc ANEW ROUNDS DOCUMENT.xml..
 *
 * It compiles the schema and judges all documents by it, ANEW times, or for 20 seconds, each time anew, and prints a line with the milliseconds of both. Then
 * it judges all of them ROUNDS times more by the last of these, which keeps what it worked out before, and prints a line with the milliseconds of each round.
 * The last line is `valid`, or `invalid` if a document was not valid. Status 3: the schema is refused.
 */
public class JingLoop {
    static final double MOST = 20_000;

    static boolean isValid = true;

    static double since(long start) {
        return (System.nanoTime() - start) / 1e6;
    }

    static ValidationDriver compiled(String schema) throws Exception {
        ValidationDriver driver = new ValidationDriver(new PropertyMapBuilder().toPropertyMap(), CompactSchemaReader.getInstance());
        if (!driver.loadSchema(ValidationDriver.fileInputSource(new File(schema)))) {
            System.exit(3);
        }
        return driver;
    }

    static double round(ValidationDriver driver, String[] words) throws Exception {
        long start = System.nanoTime();
        for (int at = 3; at < words.length; at++) {
            isValid &= driver.validate(ValidationDriver.fileInputSource(new File(words[at])));
        }
        return since(start);
    }

    public static void main(String[] words) throws Exception {
        ValidationDriver driver = null;
        long began = System.nanoTime();
        for (int time = 0; time < Integer.parseInt(words[1]) && since(began) < MOST; time++) {
            long start = System.nanoTime();
            driver = compiled(words[0]);
            double compilation = since(start);
            System.out.printf("%.4f %.4f%n", compilation, round(driver, words));
        }
        for (int time = 0; time < Integer.parseInt(words[2]); time++) {
            System.out.printf("%.4f%n", round(driver, words));
        }
        System.out.println(isValid ? "valid" : "invalid");
    }
}
