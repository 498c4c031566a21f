/* The number, name and sentence of each refusal in `dnorm help`, each as an argument list of ROW.
   `tools/lists --write` makes this file. */
#ifndef DNORM_CODES_H
#define DNORM_CODES_H
#define DNORM_CODES(ROW) \
    ROW(1, "BadLine", "The first word is none of p, n, a, s, q and v.") \
    ROW(2, "EarlyLine", "A line other than p precedes the problem line.") \
    ROW(3, "SecondProblem", "There is a second problem line.") \
    ROW(4, "UnknownProblem", "The problem line names none of the six kinds.") \
    ROW(5, "WrongLine", "A file of this kind has no line with this letter.") \
    ROW(6, "LateNode", "A node line follows an arc line.") \
    ROW(7, "TooManyLines", "There are more counted lines than declared.") \
    ROW(8, "FieldCount", "The line has too few or too many words.") \
    ROW(9, "NotANumber", "A number field is no whole number in decimal digits.") \
    ROW(10, "OutOfRange", "A number is below -2^63 or above 2^63-1.") \
    ROW(11, "Negative", "NODES, ARCS, K, LOW or CAP is below 0.") \
    ROW(12, "BadTerminal", "The third word of a max node line is neither s nor t.") \
    ROW(13, "NodeOutOfRange", "A node is not in 1 to NODES; in a companion, below 1.") \
    ROW(14, "RepeatedNode", "A node has a second node line or a second point, or there is a second source or sink.") \
    ROW(15, "SameTerminal", "Source and sink are one node.") \
    ROW(16, "LowAboveCap", "The lower bound LOW of an arc is above its capacity CAP.") \
    ROW(17, "SumTooLarge", "The capacities from SRC to DST sum to more than 2^63-1.") \
    ROW(18, "NoProblem", "There is no problem line.") \
    ROW(19, "MissingTerminal", "A max file has no source or no sink.") \
    ROW(20, "TooFewLines", "There are fewer counted lines than declared.") \
    ROW(21, "TooLong", "The line's number is 2^63-1.") \
    ROW(30, "Memory", "The system or a limit refused more memory.") \
    ROW(31, "Read", "The file could not be opened, or reading it failed.") \
    ROW(32, "Endless", "The file has no end: 2^40 reads returned bytes.") \
    ROW(33, "Write", "Writing to standard output failed.") \
    ROW(34, "CountTooLarge", "The canonical text has more than 2^63-1 counted lines.") \
    ROW(35, "NotInGraph", "The companion names a node above NODES of the graph.") \
    ROW(36, "NotKinds", "FILE is not an sp graph, or COMPANION is no companion.")
#endif
