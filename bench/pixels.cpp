// pixels FILE..: how fast libclf_c.a (clf_apply, f64) and OpenColorIO's CPU processor (f32) run the same picture through each look, in one
// thread, one after the other in each round. README.md says what each column is.
#include "../capi/clf.h"

#include <OpenColorIO/OpenColorIO.h>
#include <cmath>
#include <cstdio>
#include <cstdlib>
#include <cstring>
#include <ctime>
#include <fstream>
#include <iterator>
#include <limits>
#include <string>
#include <vector>

namespace OCIO = OCIO_NAMESPACE;

static double clock_of(clockid_t id)
{
    timespec t;
    clock_gettime(id, &t);
    return double(t.tv_sec) + 1e-9 * double(t.tv_nsec);
}

// The least seconds of all runs so far: of the thread's processor time, and by the clock on the wall.
struct Best {
    double processor = std::numeric_limits<double>::infinity();
    double wall = std::numeric_limits<double>::infinity();

    template <class F> void run(F f)
    {
        const double wall_start = clock_of(CLOCK_MONOTONIC);
        const double start = clock_of(CLOCK_THREAD_CPUTIME_ID);
        f();
        processor = std::fmin(processor, clock_of(CLOCK_THREAD_CPUTIME_ID) - start);
        wall = std::fmin(wall, clock_of(CLOCK_MONOTONIC) - wall_start);
    }
};

// The least rounds, and the least seconds over all rounds.
struct Effort {
    int rounds;
    double seconds;
};

// `count` pictures of width x height, so that a timed part is long enough even if a picture is small.
struct Size {
    const char *name;
    long width, height, count;
    Effort effort;

    size_t pixels() const { return size_t(width) * size_t(height); }
    size_t all() const { return pixels() * size_t(count); }
};

static const Size sizes[] = {
    {"1920x1080", 1920, 1080, 1, {11, 0}},
    {"64x64", 64, 64, 8, {51, 0.25}},
};

// A file of our reading, and the room lent to it: as many numbers as it has.
struct Ours {
    std::vector<uint8_t> file;
    std::vector<int64_t> coefficients;
    std::vector<int8_t> powers;

    clf_read read() { return clf_read_file(file.data(), file.size(), coefficients.data(), coefficients.size(), powers.data(), powers.size()); }

    clf_check apply(double *pixels, size_t count)
    {
        return clf_apply(file.data(), file.size(), coefficients.data(), coefficients.size(), powers.data(), powers.size(), pixels, count);
    }
};

static void expect(uint64_t number, uint64_t expected, const char *what)
{
    if (number == expected) return;
    std::fprintf(stderr, "%s answers %llu instead of %llu\n", what, (unsigned long long)number, (unsigned long long)expected);
    std::exit(1);
}

static Ours ours_from(const char *name)
{
    std::ifstream f(name, std::ios::binary);
    Ours look;
    look.file.assign(std::istreambuf_iterator<char>(f), std::istreambuf_iterator<char>());
    look.coefficients.resize(262144);
    look.powers.resize(262144);
    const clf_read r = look.read();
    expect(r.number, 0, name);
    look.coefficients.resize(r.numbers);
    look.powers.resize(r.numbers);
    return look;
}

// A cube's method, which OpenColorIO takes from the file: its linear is trilinear.
static const char *name_of(OCIO::Interpolation interpolation)
{
    switch (interpolation) {
    case OCIO::INTERP_LINEAR: return "LUT3D trilinear";
    case OCIO::INTERP_TETRAHEDRAL: return "LUT3D tetrahedral";
    default: return "LUT3D by another method";
    }
}

static const char *name_of(const OCIO::ConstTransformRcPtr &step)
{
    switch (step->getTransformType()) {
    case OCIO::TRANSFORM_TYPE_CDL: return "CDL";
    case OCIO::TRANSFORM_TYPE_LUT1D: return "LUT1D";
    case OCIO::TRANSFORM_TYPE_LUT3D: return name_of(OCIO_DYNAMIC_POINTER_CAST<const OCIO::Lut3DTransform>(step)->getInterpolation());
    case OCIO::TRANSFORM_TYPE_MATRIX: return "Matrix";
    case OCIO::TRANSFORM_TYPE_RANGE: return "Range";
    default: return "another";
    }
}

// OpenColorIO's processor for a file, and the names of what is left behind its optimizer.
struct Theirs {
    OCIO::ConstCPUProcessorRcPtr processor;
    std::string steps;
};

static Theirs theirs_from(const char *name)
{
    OCIO::FileTransformRcPtr t = OCIO::FileTransform::Create();
    t->setSrc(name);
    OCIO::ConstProcessorRcPtr p = OCIO::Config::CreateRaw()->getProcessor(t);
    Theirs look;
    look.processor = p->getOptimizedCPUProcessor(OCIO::BIT_DEPTH_F32, OCIO::BIT_DEPTH_F32, OCIO::OPTIMIZATION_DEFAULT);
    const OCIO::GroupTransformRcPtr steps =
        p->getOptimizedProcessor(OCIO::BIT_DEPTH_F32, OCIO::BIT_DEPTH_F32, OCIO::OPTIMIZATION_DEFAULT)->createGroupTransform();
    for (int i = 0; i < steps->getNumTransforms(); ++i) look.steps += std::string(i > 0 ? ", " : "") + name_of(steps->getTransform(i));
    if (look.processor->isNoOp() || steps->getNumTransforms() == 0) {
        std::fprintf(stderr, "%s: OpenColorIO has nothing left to do\n", name);
        std::exit(1);
    }
    return look;
}

// The same pseudo-random values from -0.1 to 1.1 in three forms, each exactly an f32.
struct Picture {
    std::vector<double> rgb64;
    std::vector<float> rgb, rgba;

    explicit Picture(size_t pixels)
    {
        uint64_t state = 88172645463325252u;
        for (size_t i = 0; i < pixels; ++i) {
            for (int c = 0; c < 3; ++c) {
                state ^= state << 13;
                state ^= state >> 7;
                state ^= state << 17;
                const float x = float(-0.1 + 1.2 * (double(state >> 11) / 9007199254740992.0));
                rgb64.push_back(double(x));
                rgb.push_back(x);
                rgba.push_back(x);
            }
            rgba.push_back(1);
        }
    }
};

// Copies into memory that is kept, so that no run pays for new pages.
template <class T> static void restore(std::vector<T> &to, const std::vector<T> &from) { std::memcpy(to.data(), from.data(), from.size() * sizeof(T)); }

// What each takes, for all pictures of a size; `scanned` is a picture refused at its last component, `empty` one without pixels.
struct Figures {
    Best apply, scanned, empty, read, rgb, rgba, single;
    double difference = 0;

    // Whether reading leaves enough of the time for a difference to mean anything.
    bool tells_pixels() const { return apply.processor - empty.processor > 0.1 * apply.processor; }
};

static void run_theirs(const OCIO::CPUProcessor &processor, float *pixels, const Size &size, long channels)
{
    for (long k = 0; k < size.count; ++k) {
        OCIO::PackedImageDesc picture(pixels + size_t(k) * size.pixels() * size_t(channels), size.width, size.height, channels);
        processor.apply(picture);
    }
}

// The same picture, RGB, a call for each pixel.
static void run_singly(const OCIO::CPUProcessor &processor, float *pixels, const Size &size)
{
    for (size_t i = 0; i < size.all(); ++i) processor.applyRGB(pixels + 3 * i);
}

static void run_ours(Ours &look, double *pixels, const Size &size, size_t components, uint64_t expected)
{
    for (long k = 0; k < size.count; ++k) expect(look.apply(pixels + size_t(k) * size.pixels() * 3, components).number, expected, "clf_apply");
}

static Figures measure(Ours &ours, const Theirs &theirs, const Size &size)
{
    const Picture picture(size.all());
    Picture work = picture;
    const size_t components = size.pixels() * 3;
    Figures best;
    const double start = clock_of(CLOCK_MONOTONIC);
    for (int k = 0; k < size.effort.rounds || clock_of(CLOCK_MONOTONIC) - start < size.effort.seconds; ++k) {
        restore(work.rgb64, picture.rgb64);
        best.apply.run([&] { run_ours(ours, work.rgb64.data(), size, components, 0); });
        restore(work.rgb, picture.rgb);
        best.rgb.run([&] { run_theirs(*theirs.processor, work.rgb.data(), size, 3); });
        restore(work.rgba, picture.rgba);
        best.rgba.run([&] { run_theirs(*theirs.processor, work.rgba.data(), size, 4); });
        if (k == 0)
            for (size_t i = 0; i < size.all(); ++i)
                for (size_t c = 0; c < 3; ++c)
                    best.difference = std::fmax(best.difference, std::fmax(std::fabs(work.rgb64[3 * i + c] - double(work.rgb[3 * i + c])),
                                                                           std::fabs(work.rgb64[3 * i + c] - double(work.rgba[4 * i + c]))));

        restore(work.rgb, picture.rgb);
        best.single.run([&] { run_singly(*theirs.processor, work.rgb.data(), size); });
        restore(work.rgb64, picture.rgb64);
        for (long p = 1; p <= size.count; ++p) work.rgb64[size_t(p) * components - 1] = std::numeric_limits<double>::quiet_NaN();
        best.scanned.run([&] { run_ours(ours, work.rgb64.data(), size, components, 15); });
        run_ours(ours, work.rgb64.data(), size, 0, 0); // so that the next two find the caches alike
        best.empty.run([&] { run_ours(ours, work.rgb64.data(), size, 0, 0); });
        best.read.run([&] {
            for (long p = 0; p < size.count; ++p) expect(ours.read().number, 0, "clf_read_file");
        });
    }
    return best;
}

static std::string base_of(const char *path)
{
    const std::string s = path;
    return s.substr(s.rfind('/') + 1);
}

static void load(const char *when)
{
    double l[3] = {0, 0, 0};
    getloadavg(l, 3);
    std::printf("load %s: %.2f %.2f %.2f\n", when, l[0], l[1], l[2]);
}

int main(int argc, char **argv)
{
    unsetenv(OCIO::OCIO_OPTIMIZATION_FLAGS_ENVVAR);
    std::printf("OpenColorIO %s\n", OCIO::GetVersion());
    load("before");
    for (const Size &size : sizes) {
        std::vector<Figures> all;
        const double n = double(size.all());
        std::printf("\n%s, million pixels a second (processor time; wall time behind /)\n", size.name);
        std::printf("%-25s %15s %15s %15s %15s %15s %13s %13s %13s %11s  %s\n", "look", "clf_apply", "pixels alone", "OCIO singly", "OCIO RGB", "OCIO RGBA", "to singly", "to RGB", "to RGBA",
                    "difference", "what OCIO runs");
        for (int i = 1; i < argc; ++i) {
            Ours ours = ours_from(argv[i]);
            const Theirs theirs = theirs_from(argv[i]);
            const Figures f = measure(ours, theirs, size);
            const auto rate = [&](double processor, double wall) { std::printf(" %7.1f/%7.1f", n / processor / 1e6, n / wall / 1e6); };
            const double processor = f.apply.processor - f.empty.processor, wall = f.apply.wall - f.empty.wall;
            const auto ratio = [&](const Best &theirs) {
                if (f.tells_pixels())
                    std::printf(" %6.2f/%6.2f", theirs.processor / processor, theirs.wall / wall);
                else
                    std::printf(" %13s", "-");
            };
            std::printf("%-25s", base_of(argv[i]).c_str());
            rate(f.apply.processor, f.apply.wall);
            if (f.tells_pixels())
                rate(processor, wall);
            else
                std::printf(" %15s", "-");
            rate(f.single.processor, f.single.wall);
            rate(f.rgb.processor, f.rgb.wall);
            rate(f.rgba.processor, f.rgba.wall);
            ratio(f.single);
            ratio(f.rgb);
            ratio(f.rgba);
            std::printf(" %11.1e  %s\n", f.difference, theirs.steps.c_str());
            std::fflush(stdout);
            all.push_back(f);
        }
        std::printf("\n%s, where clf_apply's processor time goes\n", size.name);
        std::printf("%-25s %14s %14s %14s %14s\n", "look", "reading us", "validity us", "refusal 15 ns", "accepted ns");
        for (int i = 1; i < argc; ++i) {
            const Figures &f = all[size_t(i - 1)];
            const double calls = double(size.count);
            std::printf("%-25s %14.2f %14.2f", base_of(argv[i]).c_str(), f.read.processor / calls * 1e6, (f.empty.processor - f.read.processor) / calls * 1e6);
            if (f.tells_pixels())
                std::printf(" %14.3f %14.3f\n", (f.scanned.processor - f.empty.processor) / n * 1e9, (f.apply.processor - f.empty.processor) / n * 1e9);
            else
                std::printf(" %14s %14s\n", "-", "-");
        }
    }
    std::printf("\n");
    load("behind");
    return 0;
}
