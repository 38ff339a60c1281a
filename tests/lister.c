// The naive listing as a program: what tests/faults.sh plants its faults in.
#include "standard.h"

int main(int argc, char **argv)
{
    static Reading reading;
    if (standard_usage("radvoinis-listing", " <RECORD", argc, argv)) return 0;
    standard_read("radvoinis-listing", &reading, stdout);
    standard_end("radvoinis-listing");
    return 0;
}
