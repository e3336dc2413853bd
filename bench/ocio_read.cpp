// ocio_read FILE..: how fast OpenColorIO reads each file (a FileTransform made into a processor of a new Config, with all caches cleared before each run).
// Figures are of processor time; each is the best of five.
#include <OpenColorIO/OpenColorIO.h>
#include <cstdio>
#include <ctime>
#include <fstream>

namespace OCIO = OCIO_NAMESPACE;

static double now()
{
    timespec t;
    clock_gettime(CLOCK_PROCESS_CPUTIME_ID, &t);
    return double(t.tv_sec) + 1e-9 * double(t.tv_nsec);
}

int main(int argc, char **argv)
{
    for (int i = 1; i < argc; ++i) {
        std::ifstream f(argv[i], std::ios::binary | std::ios::ate);
        const double size = double(f.tellg());
        double least = 0;
        for (int k = 0; k < 5; ++k) {
            OCIO::ClearAllCaches();
            OCIO::ConstConfigRcPtr config = OCIO::Config::CreateRaw();
            OCIO::FileTransformRcPtr t = OCIO::FileTransform::Create();
            t->setSrc(argv[i]);
            const double start = now();
            try {
                config->getProcessor(t);
            } catch (const OCIO::Exception &e) {
                std::printf("%s: %s\n", argv[i], e.what());
                break;
            }
            const double spent = now() - start;
            if (k == 0 || spent < least) least = spent;
        }
        if (least > 0) std::printf("%-22s %9.0f  OpenColorIO %s  %6.1f MB/s %6.1f ns a byte\n", argv[i], size, OCIO::GetVersion(), size / least / 1e6, least / size * 1e9);
    }
    return 0;
}
