import com.thaiopensource.datatype.xsd.regex.RegexSyntaxException;
import com.thaiopensource.datatype.xsd.regex.java.Translator;
import java.io.BufferedReader;
import java.io.InputStreamReader;
import java.nio.charset.StandardCharsets;
import java.util.Base64;
import java.util.regex.Pattern;
import java.util.regex.PatternSyntaxException;

/**
 * Judges texts by expressions as jing does, which translates them for `java.util.regex`:
 *
 *     java -cp jing.jar:FOLDER JingPatterns
 *
 * A line of standard input is an expression and texts, in base 64 with tabs between them. The answer is a line: `taken` and a letter for each text, or `refused`
 * and why. The letters are `v` (valid), `i` (invalid), `s` (it takes too many steps) and `o` (the stack overflows).
 */
public class JingPatterns {
    static final long MOST_STEPS = 3_000_000;

    /** A text that is looked at so often at most. */
    static class Limited implements CharSequence {
        final String text;
        long steps = 0;

        Limited(String text) {
            this.text = text;
        }

        public int length() {
            return text.length();
        }

        public char charAt(int at) {
            if (++steps > MOST_STEPS) {
                throw new IllegalStateException("too many steps");
            }
            return text.charAt(at);
        }

        public CharSequence subSequence(int begin, int end) {
            return text.subSequence(begin, end);
        }
    }

    static String decoded(String field) {
        return new String(Base64.getDecoder().decode(field), StandardCharsets.UTF_8);
    }

    static char judged(Pattern pattern, String text) {
        try {
            return pattern.matcher(new Limited(text)).matches() ? 'v' : 'i';
        } catch (IllegalStateException end) {
            return 's';
        } catch (StackOverflowError end) {
            return 'o';
        }
    }

    static String answer(String[] fields) {
        StringBuilder letters = new StringBuilder("taken ");
        try {
            Pattern pattern = Pattern.compile(Translator.translate(decoded(fields[0])));
            for (int at = 1; at < fields.length; at++) {
                letters.append(judged(pattern, decoded(fields[at])));
            }
        } catch (RegexSyntaxException fault) {
            return "refused " + fault.getMessage();
        } catch (PatternSyntaxException fault) {
            return "refused by Java: " + fault.getDescription();
        } catch (StackOverflowError fault) {
            return "refused by Java: StackOverflowError";
        }
        return letters.toString();
    }

    public static void main(String[] words) throws Exception {
        BufferedReader lines = new BufferedReader(new InputStreamReader(System.in, StandardCharsets.US_ASCII));
        for (String line = lines.readLine(); line != null; line = lines.readLine()) {
            System.out.println(answer(line.split("\t", -1)));
            System.out.flush();
        }
    }
}
