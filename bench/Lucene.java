// Lucene over the documents of bench/searches.py. Its words are those of StandardTokenizer in small letters, and nothing is kept of an answer.
//
// Lucene make INDEX      reads lines TITLE<TAB>BODY, and makes an index of one segment
// Lucene ask INDEX       reads lines COUNT<TAB>ORDER<TAB>FORM WORD .., answers each so often, and prints the nanoseconds of this thread's
//                        processor time for one, and how many documents were found; a line that is new is answered for some time before
// Lucene once INDEX      reads one of these lines, and prints the same of the opening and one answer, with nothing before them
import java.io.BufferedReader;
import java.io.IOException;
import java.io.InputStreamReader;
import java.lang.management.ManagementFactory;
import java.lang.management.ThreadMXBean;
import java.nio.charset.StandardCharsets;
import java.nio.file.Paths;
import java.util.Arrays;
import java.util.HashSet;
import java.util.Set;
import org.apache.lucene.analysis.Analyzer;
import org.apache.lucene.analysis.LowerCaseFilter;
import org.apache.lucene.analysis.standard.StandardTokenizer;
import org.apache.lucene.document.Document;
import org.apache.lucene.document.Field;
import org.apache.lucene.document.TextField;
import org.apache.lucene.index.DirectoryReader;
import org.apache.lucene.index.IndexWriter;
import org.apache.lucene.index.IndexWriterConfig;
import org.apache.lucene.index.LeafReaderContext;
import org.apache.lucene.index.Term;
import org.apache.lucene.search.BooleanClause.Occur;
import org.apache.lucene.search.BooleanQuery;
import org.apache.lucene.search.IndexSearcher;
import org.apache.lucene.search.PhraseQuery;
import org.apache.lucene.search.PrefixQuery;
import org.apache.lucene.search.Query;
import org.apache.lucene.search.ScoreMode;
import org.apache.lucene.search.SimpleCollector;
import org.apache.lucene.search.TermQuery;
import org.apache.lucene.search.spans.SpanNearQuery;
import org.apache.lucene.search.spans.SpanQuery;
import org.apache.lucene.search.spans.SpanTermQuery;
import org.apache.lucene.store.FSDirectory;

final class Lucene {
    private static final ThreadMXBean CLOCK = ManagementFactory.getThreadMXBean();
    private static final long WARM = 300_000_000L;
    private static final int BETWEEN = 4; // words between two that stand near
    private static final int BEST = 10;

    private static final class Words extends Analyzer {
        @Override
        protected TokenStreamComponents createComponents(String field) {
            StandardTokenizer source = new StandardTokenizer();
            return new TokenStreamComponents(source, new LowerCaseFilter(source));
        }

        @Override
        public int getPositionIncrementGap(String field) {
            return 100;
        }
    }

    /** All documents of an answer, by their numbers. */
    private static final class All extends SimpleCollector {
        int[] numbers = new int[1024];
        int count;
        private int base;

        @Override
        protected void doSetNextReader(LeafReaderContext leaf) {
            base = leaf.docBase;
        }

        @Override
        public void collect(int number) {
            if (count == numbers.length) {
                numbers = Arrays.copyOf(numbers, 2 * count);
            }
            numbers[count++] = base + number;
        }

        @Override
        public ScoreMode scoreMode() {
            return ScoreMode.COMPLETE_NO_SCORES;
        }
    }

    private static Query term(String word) {
        return new TermQuery(new Term("text", word));
    }

    private static SpanQuery span(String word) {
        return new SpanTermQuery(new Term("text", word));
    }

    private static Query two(String[] words, Occur first, Occur second) {
        return new BooleanQuery.Builder().add(term(words[1]), first).add(term(words[2]), second).build();
    }

    private static Query query(String[] words) {
        switch (words[0]) {
            case "word":
                return term(words[1]);
            case "title":
                return new TermQuery(new Term("title", words[1]));
            case "prefix":
                return new PrefixQuery(new Term("text", words[1]));
            case "and":
                return two(words, Occur.MUST, Occur.MUST);
            case "not":
                return two(words, Occur.MUST, Occur.MUST_NOT);
            case "or":
                return two(words, Occur.SHOULD, Occur.SHOULD);
            case "phrase":
                return new PhraseQuery("text", Arrays.copyOfRange(words, 1, words.length));
            case "near":
                return new SpanNearQuery(new SpanQuery[] {span(words[1]), span(words[2])}, BETWEEN, false);
            default:
                throw new IllegalArgumentException(words[0]);
        }
    }

    private static int answer(IndexSearcher searcher, String order, String text) throws IOException {
        Query query = query(text.split(" "));
        switch (order) {
            case "count":
                return searcher.count(query);
            case "best":
                return searcher.search(query, BEST).scoreDocs.length;
            case "all":
                All all = new All();
                searcher.search(query, all);
                return all.count;
            default:
                throw new IllegalArgumentException(order);
        }
    }

    private static IndexSearcher open(String index) throws IOException {
        IndexSearcher searcher = new IndexSearcher(DirectoryReader.open(FSDirectory.open(Paths.get(index))));
        searcher.setQueryCache(null);
        return searcher;
    }

    private static void make(String index, BufferedReader lines) throws IOException {
        try (IndexWriter writer = new IndexWriter(FSDirectory.open(Paths.get(index)), new IndexWriterConfig(new Words()))) {
            for (String line = lines.readLine(); line != null; line = lines.readLine()) {
                String[] parts = line.split("\t", -1);
                Document document = new Document();
                document.add(new TextField("title", parts[0], Field.Store.NO));
                document.add(new TextField("text", parts[0], Field.Store.NO));
                document.add(new TextField("text", parts[1], Field.Store.NO));
                writer.addDocument(document);
            }
            writer.forceMerge(1);
        }
    }

    private static void once(String index, String line) throws IOException {
        String[] parts = line.split("\t");
        long begun = CLOCK.getCurrentThreadCpuTime();
        int found = answer(open(index), parts[1], parts[2]);
        System.out.println((CLOCK.getCurrentThreadCpuTime() - begun) + "\t" + found);
    }

    private static void ask(IndexSearcher searcher, BufferedReader lines) throws IOException {
        Set<String> known = new HashSet<>();
        for (String line = lines.readLine(); line != null; line = lines.readLine()) {
            String[] parts = line.split("\t");
            long until = known.add(parts[1] + parts[2]) ? CLOCK.getCurrentThreadCpuTime() + WARM : 0;
            while (CLOCK.getCurrentThreadCpuTime() < until) {
                answer(searcher, parts[1], parts[2]);
            }
            int count = Integer.parseInt(parts[0]);
            int found = 0;
            long begun = CLOCK.getCurrentThreadCpuTime();
            for (int turn = 0; turn < count; turn++) {
                found = answer(searcher, parts[1], parts[2]);
            }
            System.out.println((CLOCK.getCurrentThreadCpuTime() - begun) / count + "\t" + found);
            System.out.flush();
        }
    }

    public static void main(String[] words) throws IOException {
        BufferedReader lines = new BufferedReader(new InputStreamReader(System.in, StandardCharsets.UTF_8));
        switch (words[0]) {
            case "make":
                make(words[1], lines);
                break;
            case "once":
                once(words[1], lines.readLine());
                break;
            default:
                ask(open(words[1]), lines);
        }
    }
}
