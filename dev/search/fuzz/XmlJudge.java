import com.thaiopensource.util.PropertyMapBuilder;
import com.thaiopensource.validate.ValidateProperty;
import com.thaiopensource.validate.ValidationDriver;
import com.thaiopensource.validate.rng.CompactSchemaReader;
import java.io.BufferedReader;
import java.io.CharConversionException;
import java.io.File;
import java.io.FileOutputStream;
import java.io.InputStreamReader;
import java.io.OutputStreamWriter;
import java.io.PrintStream;
import java.io.Writer;
import java.util.HashMap;
import java.util.Map;
import java.util.TreeMap;
import javax.xml.parsers.SAXParserFactory;
import org.xml.sax.Attributes;
import org.xml.sax.InputSource;
import org.xml.sax.SAXException;
import org.xml.sax.SAXParseException;
import org.xml.sax.XMLReader;
import org.xml.sax.helpers.DefaultHandler;

/** Answers lines about XML documents, each by one line. The words of a line have no blanks in them.
 *
 *  schema NAME FILE.rnc     `ok`, or `refused` and why; the schema is kept by its name
 *  open NAME FILE.xml       `valid`, `invalid`, `malformed` or `failed`, and why: jing as it is, which loads external entities
 *  closed NAME FILE.xml     the same, and no external entity is loaded
 *  events FILE.xml FILE     `good`, `malformed` or `failed`: what the parser reports, as PYX without instructions, without loading external entities */
public class XmlJudge {
    static final String SAX = "http://xml.org/sax/features/";

    static class Told extends DefaultHandler {
        String last = "";
        boolean isFatal;

        @Override
        public void error(SAXParseException fault) {
            last = last.isEmpty() ? String.valueOf(fault.getMessage()) : last;
        }

        @Override
        public void fatalError(SAXParseException fault) throws SAXException {
            isFatal = true;
            last = String.valueOf(fault.getMessage());
            throw fault;
        }

        String answer(String what) {
            return (what + " " + last).replaceAll("[\\p{Cntrl}\\s]+", " ").trim();
        }

        String answer(Exception fault) {
            if (!isFatal) {
                last = fault.toString();
            }
            return answer(isFatal || fault instanceof CharConversionException ? "malformed" : "failed");
        }
    }

    /** Writes events as PYX: attributes in the order of their names, and text in one line. */
    static class Lines extends Told {
        final StringBuilder text = new StringBuilder();
        final Writer out;

        Lines(Writer out) {
            this.out = out;
        }

        void line(char kind, String what) throws SAXException {
            try {
                out.write(kind + what.replace("\\", "\\\\").replace("\n", "\\n").replace("\t", "\\t") + "\n");
            } catch (java.io.IOException fault) {
                throw new SAXException(fault);
            }
        }

        void endText() throws SAXException {
            if (text.length() > 0) {
                line('-', text.toString());
                text.setLength(0);
            }
        }

        @Override
        public void startElement(String uri, String local, String name, Attributes attributes) throws SAXException {
            endText();
            line('(', name);
            Map<String, String> sorted = new TreeMap<>();
            for (int at = 0; at < attributes.getLength(); at++) {
                sorted.put(attributes.getQName(at), attributes.getValue(at));
            }
            for (Map.Entry<String, String> it : sorted.entrySet()) {
                line('A', it.getKey() + " " + it.getValue());
            }
        }

        @Override
        public void endElement(String uri, String local, String name) throws SAXException {
            endText();
            line(')', name);
        }

        @Override
        public void characters(char[] from, int at, int length) {
            text.append(from, at, length);
        }

        @Override
        public void ignorableWhitespace(char[] from, int at, int length) {
            text.append(from, at, length);
        }
    }

    static XMLReader reader(boolean isClosed) throws SAXException {
        try {
            SAXParserFactory factory = SAXParserFactory.newInstance();
            factory.setNamespaceAware(true);
            XMLReader made = factory.newSAXParser().getXMLReader();
            if (isClosed) {
                made.setFeature(SAX + "external-general-entities", false);
                made.setFeature(SAX + "external-parameter-entities", false);
                made.setFeature("http://apache.org/xml/features/nonvalidating/load-external-dtd", false);
            }
            return made;
        } catch (javax.xml.parsers.ParserConfigurationException fault) {
            throw new SAXException(fault);
        }
    }

    /** A schema, and what it said of the last document. */
    static class Schema {
        final Told told = new Told();
        final ValidationDriver driver;

        Schema(boolean isClosed) {
            PropertyMapBuilder properties = new PropertyMapBuilder();
            ValidateProperty.ERROR_HANDLER.put(properties, told);
            if (isClosed) {
                ValidateProperty.XML_READER_CREATOR.put(properties, () -> reader(true));
            }
            driver = new ValidationDriver(properties.toPropertyMap(), CompactSchemaReader.getInstance());
        }

        boolean load(File file) throws Exception {
            return driver.loadSchema(ValidationDriver.fileInputSource(file));
        }

        String judge(File file) {
            told.last = "";
            told.isFatal = false;
            try {
                boolean isValid = driver.validate(ValidationDriver.fileInputSource(file));
                return told.answer(told.isFatal ? "malformed" : isValid ? "valid" : "invalid");
            } catch (Exception fault) {
                return told.answer(fault);
            }
        }
    }

    static String events(File file, File to) throws Exception {
        try (Writer out = new OutputStreamWriter(new FileOutputStream(to), "UTF-8")) {
            Lines lines = new Lines(out);
            try {
                XMLReader reader = reader(true);
                reader.setFeature(SAX + "namespace-prefixes", true);
                reader.setContentHandler(lines);
                reader.setErrorHandler(lines);
                reader.parse(new InputSource(file.toURI().toString()));
                return "good";
            } catch (Exception fault) {
                return lines.answer(fault);
            }
        }
    }

    final Map<String, Schema> schemas = new HashMap<>();

    String answer(String[] words) throws Exception {
        switch (words[0]) {
        case "schema":
            for (String way : new String[] {"open", "closed"}) {
                Schema schema = new Schema(way.equals("closed"));
                if (!schema.load(new File(words[2]))) {
                    return schema.told.answer("refused");
                }
                schemas.put(way + " " + words[1], schema);
            }
            return "ok";
        case "events":
            return events(new File(words[1]), new File(words[2]));
        case "parser":
            return reader(true).getClass().getName();
        default:
            return schemas.get(words[0] + " " + words[1]).judge(new File(words[2]));
        }
    }

    public static void main(String[] none) throws Exception {
        BufferedReader lines = new BufferedReader(new InputStreamReader(System.in, "UTF-8"));
        PrintStream out = new PrintStream(System.out, true, "UTF-8");
        XmlJudge judge = new XmlJudge();
        for (String line = lines.readLine(); line != null; line = lines.readLine()) {
            try {
                out.println(judge.answer(line.split(" ")));
            } catch (StackOverflowError | OutOfMemoryError fault) {
                out.println("failed " + fault.getClass().getName());
            }
        }
    }
}
