import com.thaiopensource.util.PropertyMapBuilder;
import com.thaiopensource.validate.ValidateProperty;
import com.thaiopensource.validate.ValidationDriver;
import com.thaiopensource.validate.prop.rng.RngProperty;
import com.thaiopensource.validate.rng.CompactSchemaReader;
import com.thaiopensource.validate.rng.SAXSchemaReader;
import java.io.BufferedReader;
import java.io.File;
import java.io.InputStreamReader;
import java.io.PrintStream;
import org.xml.sax.ErrorHandler;
import org.xml.sax.SAXParseException;

/** Answers each line `xml PATH` or `compact PATH` by `ok` and the simple form of the schema on one line, or by `refused` and jing's first fault. */
public class JingSimple {
    static class First implements ErrorHandler {
        String told = "";

        public void warning(SAXParseException fault) {
        }

        public void error(SAXParseException fault) {
            told = told.isEmpty() ? String.valueOf(fault.getMessage()) : told;
        }

        public void fatalError(SAXParseException fault) {
            error(fault);
        }
    }

    static String answer(String kind, String path) {
        First first = new First();
        try {
            PropertyMapBuilder properties = new PropertyMapBuilder();
            ValidateProperty.ERROR_HANDLER.put(properties, first);
            ValidationDriver driver = new ValidationDriver(properties.toPropertyMap(),
                kind.equals("compact") ? CompactSchemaReader.getInstance() : SAXSchemaReader.getInstance());
            boolean good = driver.loadSchema(ValidationDriver.fileInputSource(new File(path)));
            return good ? "ok " + driver.getSchemaProperties().get(RngProperty.SIMPLIFIED_SCHEMA) : "refused " + first.told;
        } catch (Exception | StackOverflowError fault) {
            return "refused " + fault;
        }
    }

    public static void main(String[] words) throws Exception {
        BufferedReader lines = new BufferedReader(new InputStreamReader(System.in, "UTF-8"));
        PrintStream answers = new PrintStream(System.out, true, "UTF-8");
        for (String line = lines.readLine(); line != null; line = lines.readLine()) {
            String[] parts = line.split(" ", 2);
            answers.println(answer(parts[0], parts[1]).replaceAll("[\r\n]", " "));
        }
    }
}
