import java.nio.file.Path;
import java.time.Duration;
import java.util.Scanner;
import svid.*;

/** Reads a token a line, and prints what becomes of it: Service once FOLDER, or Service MODE URL. */
public class Service {
    public static void main(String[] args) throws Exception {
        Duration wait = Duration.ofMinutes(1);
        Options options = Options.audiences("ledger").wait(wait);
        if (args[0].equals("once")) {
            options = options.state(Path.of(args[1]));
        } else {
            options = options.mode(Mode.valueOf(args[0].toUpperCase())).store(PostgresStore.at(args[1]).wait(wait).open());
        }
        try (Validator validator = Validator.open(options, Sources.file("example.org", Path.of("example.org.json")))) {
            for (Scanner tokens = new Scanner(System.in); tokens.hasNextLine();) {
                try {
                    System.out.println("accepted " + validator.check(tokens.nextLine()).spiffeId());
                } catch (Refusal why) {
                    System.out.println(why.reason());
                } catch (SvidException why) {
                    System.err.println(why);
                    System.out.println("unavailable");
                }
            }
        }
    }
}
