/* CiftiLib (Debian's libcifti-dev) on one file: the header text into its own maps.

     ciftilib FILE [REPEATS]

   Prints as creader does; the checksum is 0. */
#include <Cifti/CiftiXML.h>
#include <cstdio>
#include <cstdlib>
#include <ctime>
#include <algorithm>
#include <vector>

static double now()
{
    timespec t;
    clock_gettime(CLOCK_PROCESS_CPUTIME_ID, &t);
    return t.tv_sec * 1e3 + t.tv_nsec / 1e6;
}

static long peak()
{
    char line[128];
    long kilobytes = 0;
    FILE *f = fopen("/proc/self/status", "r");
    while (f && fgets(line, sizeof line, f))
        if (sscanf(line, "VmHWM: %ld", &kilobytes) == 1)
            break;
    if (f)
        fclose(f);
    return kilobytes;
}

int main(int argc, char **argv)
{
    FILE *f = argc > 1 ? fopen(argv[1], "rb") : nullptr;
    if (!f)
        return 2;
    std::vector<char> text;
    char part[65536];
    for (size_t got; (got = fread(part, 1, sizeof part, f)) > 0;)
        text.insert(text.end(), part, part + got);
    fclose(f);
    size_t records = 0;
    int number = 0;
    std::vector<double> times;
    for (int i = 0; i < (argc > 2 ? atoi(argv[2]) : 1); i++) {
        double begin = now();
        try {
            cifti::CiftiXML header;
            header.readXML(text);
            records = 0;
            for (int d = 0; d < header.getNumberOfDimensions(); d++)
                if (header.getMappingType(d) == cifti::CiftiMappingType::BRAIN_MODELS)
                    records += header.getMap(d)->getLength();
        } catch (...) {
            number = 1;
        }
        times.push_back(now() - begin);
    }
    std::sort(times.begin(), times.end());
    printf("ciftilib %zu %zu %d %.3f %.3f 0 %ld\n", text.size(), records, number, times[times.size() / 2], times[0], peak());
}
