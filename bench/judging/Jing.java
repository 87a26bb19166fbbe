import com.thaiopensource.util.PropertyMapBuilder;
import com.thaiopensource.validate.ValidateProperty;
import com.thaiopensource.validate.ValidationDriver;
import com.thaiopensource.validate.auto.AutoSchemaReader;
import com.thaiopensource.validate.rng.CompactSchemaReader;
import java.io.BufferedReader;
import java.io.InputStreamReader;
import java.nio.charset.StandardCharsets;
import java.nio.file.Files;
import java.nio.file.Path;
import org.xml.sax.ErrorHandler;
import org.xml.sax.InputSource;
import org.xml.sax.SAXParseException;

/**
 * Answers lines of standard input: `schema PATH` reads a schema, `document PATH` judges a document by the last schema that could be read.
 * Each answer is a line: `good`, or `bad ` and the first thing that is wrong. Documents' types are ignored.
 */
class Jing {
    private static String wrong;

    private static void note(SAXParseException fault) {
        if (wrong == null) {
            wrong = fault.getLineNumber() + ":" + fault.getColumnNumber() + ": " + fault.getMessage();
        }
    }

    public static void main(String[] words) throws Exception {
        var properties = new PropertyMapBuilder();
        properties.put(ValidateProperty.ERROR_HANDLER, new ErrorHandler() {
            public void warning(SAXParseException fault) {}
            public void error(SAXParseException fault) { note(fault); }
            public void fatalError(SAXParseException fault) { note(fault); }
        });
        properties.put(ValidateProperty.ENTITY_RESOLVER, (name, uri) ->
            uri != null && uri.endsWith(".dtd") ? new InputSource(new java.io.StringReader("")) : null);
        var in = new BufferedReader(new InputStreamReader(System.in, StandardCharsets.UTF_8));
        ValidationDriver driver = null;
        for (String line; (line = in.readLine()) != null; ) {
            String path = line.substring(line.indexOf(' ') + 1);
            wrong = null;
            boolean good = false;
            try {
                var source = ValidationDriver.uriOrFileInputSource(path);
                if (line.startsWith("schema ")) {
                    driver = new ValidationDriver(properties.toPropertyMap(),
                        path.endsWith(".rnc") ? CompactSchemaReader.getInstance() : new AutoSchemaReader());
                    good = driver.loadSchema(source);
                } else {
                    good = driver.validate(source);
                }
            } catch (Throwable fault) {
                if (wrong == null) {
                    wrong = fault.toString();
                }
            }
            System.out.println(good ? "good" : "bad " + (wrong == null ? "" : wrong.replace('\n', ' ')));
            System.out.flush();
        }
    }
}
