// Apache Jena as a peer: Jena answers|times QUERIES; a line of QUERIES is a number, a site in N-Triples and a query, with tabs between.
// Prints the number and yes or no; or the number, nanoseconds of the quickest and of the middle one of many calls, and how many.
import java.lang.management.ManagementFactory;
import java.lang.management.ThreadMXBean;
import java.nio.file.Files;
import java.nio.file.Path;
import java.util.Arrays;
import org.apache.jena.query.Query;
import org.apache.jena.query.QueryExecution;
import org.apache.jena.query.QueryExecutionFactory;
import org.apache.jena.query.QueryFactory;
import org.apache.jena.rdf.model.Model;
import org.apache.jena.riot.RDFDataMgr;

class Jena {
    static final long WARM = 2_000_000_000L, LONG_ENOUGH = 500_000_000L;
    static final int FEWEST = 21, MOST = 2001;
    static final ThreadMXBean THREAD = ManagementFactory.getThreadMXBean();

    // of this thread on the processor: neither other programs nor Java's own collector and compiler are in it
    static long now() {
        return THREAD.getCurrentThreadCpuTime();
    }

    static boolean ask(Query query, Model site) {
        try (QueryExecution one = QueryExecutionFactory.create(query, site)) {
            return one.execAsk();
        }
    }

    static String times(Query query, Model site) {
        long[] took = new long[MOST];
        int calls = 0;
        for (long begun = now(); now() - begun < WARM; ) ask(query, site);
        for (long begun = now(); calls < FEWEST || (calls < MOST && now() - begun < LONG_ENOUGH); calls++) {
            long from = now();
            ask(query, site);
            took[calls] = now() - from;
        }
        Arrays.sort(took, 0, calls);
        return took[0] + "," + took[calls / 2] + "," + calls;
    }

    public static void main(String[] words) throws Exception {
        for (String line : Files.readAllLines(Path.of(words[1]))) {
            String[] part = line.split("\t");
            Model site = RDFDataMgr.loadModel(part[1]);
            Query query = QueryFactory.create(part[2]);
            System.out.println(part[0] + "," + (words[0].equals("times") ? times(query, site) : ask(query, site) ? "yes" : "no"));
        }
    }
}
