// Writes the `sp` problem that JGraphT reads from standard input.
//
//     javac -cp '/usr/share/java/*' Jgrapht.java
//     java -cp '/usr/share/java/*:.' Jgrapht
//
// Lengths are doubles.
import java.io.InputStreamReader;
import java.math.BigDecimal;
import org.jgrapht.graph.DefaultWeightedEdge;
import org.jgrapht.graph.DirectedWeightedPseudograph;
import org.jgrapht.nio.dimacs.DIMACSImporter;

public class Jgrapht {
    public static void main(String[] words) {
        var graph = new DirectedWeightedPseudograph<Integer, DefaultWeightedEdge>(DefaultWeightedEdge.class);
        var importer = new DIMACSImporter<Integer, DefaultWeightedEdge>();
        importer.setVertexFactory(id -> id);
        try {
            importer.importGraph(graph, new InputStreamReader(System.in));
        } catch (RuntimeException error) {
            System.exit(2);
        }
        var text = new StringBuilder("p sp " + graph.vertexSet().size() + " " + graph.edgeSet().size() + "\n");
        for (var it : graph.edgeSet()) {
            var length = new BigDecimal(graph.getEdgeWeight(it)).stripTrailingZeros().toPlainString();
            text.append("a " + graph.getEdgeSource(it) + " " + graph.getEdgeTarget(it) + " " + length + "\n");
        }
        System.out.print(text);
    }
}
