// The naive listing of small histories as a program: what tests/faults.sh plants its faults in.
#include "enumerating.h"
#include "standard.h"

int main(int argc, char **argv)
{
    if (standard_usage("radvoinis-histories", "", argc, argv)) return 0;
    enumerating_write(stdout);
    standard_end("radvoinis-histories");
    return 0;
}
