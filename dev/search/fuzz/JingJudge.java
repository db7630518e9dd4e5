import com.thaiopensource.util.PropertyMapBuilder;
import com.thaiopensource.validate.ValidateProperty;
import com.thaiopensource.validate.ValidationDriver;
import com.thaiopensource.validate.rng.CompactSchemaReader;
import java.io.BufferedReader;
import java.io.File;
import java.io.InputStreamReader;
import org.xml.sax.ErrorHandler;
import org.xml.sax.SAXParseException;

/** Answers each line `schema PATH` by `ok` or `refused`, and each line `document PATH` by `valid` or `invalid`, by the schema before it. */
public class JingJudge {
    static class Quiet implements ErrorHandler {
        String last = "";

        public void warning(SAXParseException fault) {
        }

        public void error(SAXParseException fault) {
            last = String.valueOf(fault.getMessage()).replaceAll("\\s+", " ");
        }

        public void fatalError(SAXParseException fault) {
            error(fault);
        }
    }

    static String answer(boolean good, String yes, String no, Quiet told) {
        return good ? yes : no + " " + told.last;
    }

    public static void main(String[] words) throws Exception {
        BufferedReader lines = new BufferedReader(new InputStreamReader(System.in, "UTF-8"));
        Quiet told = new Quiet();
        ValidationDriver driver = null;
        for (String line = lines.readLine(); line != null; line = lines.readLine()) {
            String[] parts = line.split(" ", 2);
            told.last = "";
            try {
                if (parts[0].equals("schema")) {
                    PropertyMapBuilder properties = new PropertyMapBuilder();
                    ValidateProperty.ERROR_HANDLER.put(properties, told);
                    driver = new ValidationDriver(properties.toPropertyMap(), CompactSchemaReader.getInstance());
                    System.out.println(answer(driver.loadSchema(ValidationDriver.fileInputSource(new File(parts[1]))), "ok", "refused", told));
                } else {
                    System.out.println(answer(driver.validate(ValidationDriver.fileInputSource(new File(parts[1]))), "valid", "invalid", told));
                }
            } catch (Exception fault) {
                System.out.println((parts[0].equals("schema") ? "refused " : "invalid ") + fault);
            } catch (StackOverflowError fault) {
                System.out.println("failed");
            }
            System.out.flush();
        }
    }
}
