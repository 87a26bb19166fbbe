import com.thaiopensource.relaxng.input.parse.compact.CompactParseInputFormat;
import com.thaiopensource.relaxng.parse.compact.CompactSyntaxTokenManager;
import com.thaiopensource.relaxng.parse.compact.JavaCharStream;
import com.thaiopensource.xml.sax.ErrorHandlerImpl;
import java.io.InputStreamReader;
import java.io.InputStream;
import java.nio.charset.StandardCharsets;
import java.nio.file.Files;
import java.nio.file.Path;

/** Reads a schema as trang does: its tokens, or the tree that trang writes from. Prints how many tokens or files that is. */
class Trang {
    public static void main(String[] words) throws Exception {
        Path path = Path.of(words[1]);
        System.out.println(words[0].equals("tokens") ? tokens(path) : files(path));
    }

    static int files(Path path) throws Exception {
        return new CompactParseInputFormat()
            .load(path.toUri().toString(), new String[0], "rng", new ErrorHandlerImpl(), null)
            .getSchemaDocumentMap()
            .size();
    }

    static int tokens(Path path) throws Exception {
        try (InputStream in = Files.newInputStream(path)) {
            var chars = new JavaCharStream(new InputStreamReader(in, StandardCharsets.UTF_8));
            var tokens = new CompactSyntaxTokenManager(chars);
            int count = 0;
            while (tokens.getNextToken().kind != CompactSyntaxTokenManager.EOF) {
                count++;
            }
            return count;
        }
    }
}
