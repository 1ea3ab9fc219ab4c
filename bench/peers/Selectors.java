import java.io.IOException;
import java.io.PrintWriter;
import java.nio.file.Files;
import java.nio.file.Path;
import java.util.ArrayList;
import java.util.List;
import org.apache.activemq.command.ActiveMQMessage;
import org.apache.activemq.filter.BooleanExpression;
import org.apache.activemq.filter.MessageEvaluationContext;
import org.apache.activemq.selector.SelectorParser;

/**
 * ActiveMQ's selectors, each parsed once and then evaluated in a loop, as its broker does for the subscribers of a topic.
 *
 * <p>Selectors ROWS EVENTS SECONDS HITS TOOK: the words are those of filter.c. Some seconds before it answers the same events
 * without counting them, so that the compiler of the machine has had its time.
 */
public final class Selectors {
    private final List<BooleanExpression> selectors = new ArrayList<>();
    private final List<String> numbers = new ArrayList<>();

    private Selectors(Path rows) throws Exception {
        for (String row : Files.readAllLines(rows)) {
            String[] words = row.split(" ");
            String text = "symbol = " + words[1] + " AND price BETWEEN " + words[2] + " AND " + words[3];
            if (!words[4].equals("0")) {
                text += " AND volume >= " + words[4];
            }
            selectors.add(SelectorParser.parse(text));
            numbers.add(words[0]);
        }
    }

    private String answer(String event) throws Exception {
        String[] words = event.split(" ");
        ActiveMQMessage message = new ActiveMQMessage();
        message.setIntProperty("symbol", Integer.parseInt(words[0]));
        message.setIntProperty("price", Integer.parseInt(words[1]));
        message.setIntProperty("volume", Integer.parseInt(words[2]));
        MessageEvaluationContext context = new MessageEvaluationContext();
        context.setMessageReference(message);
        StringBuilder hits = new StringBuilder();
        for (int i = 0; i < selectors.size(); i++) {
            if (selectors.get(i).matches(context)) {
                hits.append(hits.length() == 0 ? "" : " ").append(numbers.get(i));
            }
        }
        return hits.toString();
    }

    /** How many of the events were answered within so many seconds. */
    private int answerAll(List<String> events, double seconds, PrintWriter hits) throws Exception {
        long since = System.nanoTime();
        int answered = 0;
        while (answered < events.size() && (System.nanoTime() - since) / 1e9 < seconds) {
            hits.println(answer(events.get(answered)));
            answered++;
        }
        return answered;
    }

    private static PrintWriter written(String name) throws IOException {
        return new PrintWriter(Files.newBufferedWriter(Path.of(name)));
    }

    public static void main(String[] words) throws Exception {
        Selectors all = new Selectors(Path.of(words[0]));
        List<String> events = Files.readAllLines(Path.of(words[1]));
        double seconds = Double.parseDouble(words[2]);
        try (PrintWriter nowhere = new PrintWriter(PrintWriter.nullWriter())) {
            all.answerAll(events, 2 * seconds, nowhere);
        }
        try (PrintWriter hits = written(words[3]); PrintWriter took = written(words[4])) {
            long since = System.nanoTime();
            int answered = all.answerAll(events, seconds, hits);
            took.println(answered + " " + (System.nanoTime() - since) / 1e9);
        }
    }
}
