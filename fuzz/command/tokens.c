/* Words and numbers of what the command reads: options and subcommands, the names that files have in the seeds, first lines, the words of saved runs,
 * proposals and last lines, and numbers at some bound. */
#include "rim.h"

const char *const tokens[] = {
    "list", "ladder", "check", "parts", "join", "count", "judge", "grow", "rivals", "explain", "cover", "order", "trial", "commit", "make", "comments",
    "convert", "import", "equal", "show", "--by-cases", "--needed", "--prefer", "--cutoff", "--budget", "--part", "--picks", "--save", "--resume", "--parts",
    "--again", "--", "-", "=", "--prefer=", "--cutoff=", "--budget=", "--part=", "--save=", "--resume=", "--parts=",
    "table", "logger", "ladder", "chain", "run", "proposal", "file", "list", "picks", "parts", "one", "two", "three", "new", ".", "1:1", "3:2", "1,2,3",
    "%%MatrixMarket matrix coordinate pattern general\n", "%%MatrixMarket", "matrix", "coordinate", "array", "pattern", "integer", "real", "double",
    "complex", "general", "symmetric", "skew-symmetric", "hermitian", "%", "% whole ", "\n%", "\n", "\r\n", "\r", "\t", " ", "\xef\xbb\xbf",
    "ragymolev run 1\n", "ragymolev proposal\n", "part ", "of part\n", "of list\n", "writes ladders\n", "writes picks\n", "phase handed\n", "phase down\n",
    "phase back 1\n", "phase ended\n", "picks -\n", "ladders 0\n", "bytes 0\n", "sum cbf29ce484222325\n", "check ", "verdict still a ladder\n",
    "verdict only a chain\n", "verdict no longer within the table\n", "place 1:1\n", "table\n", "ladder\n", "\nladder\n", " ladders ", " picks ", " bytes ",
    " sum ", "/gauges/", "/cases/", "/all/", "/needed/", "/plain/", "/plain/-", "/", ",", ":", "+", ".", "e", "E", "d", "1e5", "1e-5", "-0", ".5", "5.", "1.",
    "999999.999", "1000000", "1000001", "-1000000.5", "1e100000", "1e-100000", "1e999999999999", "0", "1", "2", "9", "10", "63", "64", "65", "255", "256",
    "257", "1023", "1024", "1025", "65535", "65536", "65537", "2147483647", "2147483648", "4294967295", "4294967296", "999999999", "1000000000",
    "9223372036854775807", "9223372036854775808", "18446744073709551615", "18446744073709551616", "99999999999999999999999999", "007", "nan", "inf", "0x10",
};

const size_t token_count = sizeof tokens / sizeof tokens[0];
