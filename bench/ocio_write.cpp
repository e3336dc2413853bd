// ocio_write KIND N > FILE: a CLF file as OpenColorIO writes it. KIND is lut1d (N entries of three channels), lut3d (N entries along each
// axis, no interpolation said), trilinear or tetrahedral (the same with that interpolation), matrix, range, minimum or maximum (a range with
// that pair alone), minimum_10i (at 10 bit), maximum_scaled (from 10 to 12 bit), cdl, look (matrix, range, cdl and a LUT1D of N entries in a
// row), cube_look (matrix, a tetrahedral LUT3D of N entries along each axis, range) or end_look (matrix, minimum, cdl, maximum).
#include <OpenColorIO/OpenColorIO.h>
#include <cmath>
#include <cstdlib>
#include <iostream>
#include <string>

namespace OCIO = OCIO_NAMESPACE;

static OCIO::TransformRcPtr lut1d(unsigned long n)
{
    OCIO::Lut1DTransformRcPtr t = OCIO::Lut1DTransform::Create(n, false);
    t->setFileOutputBitDepth(OCIO::BIT_DEPTH_F32);
    for (unsigned long i = 0; i < n; ++i) {
        const double x = double(i) / double(n - 1);
        t->setValue(i, float(std::pow(x, 1 / 2.2)), float(std::pow(x, 1 / 2.4)), float(x * x));
    }
    return t;
}

// Gamma, and some of each component in the others.
static OCIO::TransformRcPtr lut3d(unsigned long n, OCIO::Interpolation interpolation)
{
    OCIO::Lut3DTransformRcPtr t = OCIO::Lut3DTransform::Create(n);
    t->setFileOutputBitDepth(OCIO::BIT_DEPTH_F32);
    t->setInterpolation(interpolation);
    const auto at = [n](unsigned long i) { return double(i) / double(n - 1); };
    for (unsigned long r = 0; r < n; ++r)
        for (unsigned long g = 0; g < n; ++g)
            for (unsigned long b = 0; b < n; ++b) {
                const double x = at(r), y = at(g), z = at(b);
                t->setValue(r, g, b, float(std::pow(0.9 * x + 0.1 * y, 1 / 2.2)), float(std::pow(0.95 * y + 0.05 * z, 1 / 2.4)),
                            float(0.1 * x + 0.9 * z * z));
            }
    return t;
}

static OCIO::TransformRcPtr matrix()
{
    OCIO::MatrixTransformRcPtr t = OCIO::MatrixTransform::Create();
    const double m[16] = {1.451439316146, -0.236510746894, -0.214928569252, 0, -0.076553773396, 1.176229699834, -0.099675926438, 0,
                          0.008316148426, -0.006032449791, 0.997716301365, 0, 0, 0, 0, 1};
    const double o[4] = {0.015625, -0.25, 0, 0};
    t->setMatrix(m);
    t->setOffset(o);
    return t;
}

static OCIO::TransformRcPtr range()
{
    OCIO::RangeTransformRcPtr t = OCIO::RangeTransform::Create();
    t->setMinInValue(0.0625);
    t->setMaxInValue(0.9375);
    t->setMinOutValue(0);
    t->setMaxOutValue(1);
    return t;
}

// A range with one end, at a sixteenth or at all of full scale; the depths make code values of it.
static OCIO::TransformRcPtr one_end(bool minimum, OCIO::BitDepth in, OCIO::BitDepth out)
{
    OCIO::RangeTransformRcPtr t = OCIO::RangeTransform::Create();
    t->setFileInputBitDepth(in);
    t->setFileOutputBitDepth(out);
    if (minimum) {
        t->setMinInValue(0.0625);
        t->setMinOutValue(0.0625);
    } else {
        t->setMaxInValue(1);
        t->setMaxOutValue(1);
    }
    return t;
}

static OCIO::TransformRcPtr cdl()
{
    OCIO::CDLTransformRcPtr t = OCIO::CDLTransform::Create();
    const double slope[3] = {1.1, 0.9, 1.05}, offset[3] = {-0.01, 0.02, 0}, power[3] = {1, 1, 1};
    t->setSlope(slope);
    t->setOffset(offset);
    t->setPower(power);
    t->setSat(0.85);
    t->setStyle(OCIO::CDL_ASC);
    return t;
}

int main(int argc, char **argv)
{
    const std::string kind = argc > 1 ? argv[1] : "";
    const unsigned long n = argc > 2 ? std::strtoul(argv[2], nullptr, 10) : 2;
    OCIO::GroupTransformRcPtr group = OCIO::GroupTransform::Create();
    const bool look = kind == "look", cube_look = kind == "cube_look", end_look = kind == "end_look";
    if (look || cube_look || end_look || kind == "matrix") group->appendTransform(matrix());
    if (kind == "lut3d") group->appendTransform(lut3d(n, OCIO::INTERP_DEFAULT));
    if (kind == "trilinear") group->appendTransform(lut3d(n, OCIO::INTERP_LINEAR));
    if (cube_look || kind == "tetrahedral") group->appendTransform(lut3d(n, OCIO::INTERP_TETRAHEDRAL));
    if (look || cube_look || kind == "range") group->appendTransform(range());
    if (end_look || kind == "minimum") group->appendTransform(one_end(true, OCIO::BIT_DEPTH_F32, OCIO::BIT_DEPTH_F32));
    if (kind == "minimum_10i") group->appendTransform(one_end(true, OCIO::BIT_DEPTH_UINT10, OCIO::BIT_DEPTH_UINT10));
    if (look || end_look || kind == "cdl") group->appendTransform(cdl());
    if (end_look || kind == "maximum") group->appendTransform(one_end(false, OCIO::BIT_DEPTH_F32, OCIO::BIT_DEPTH_F32));
    if (kind == "maximum_scaled") group->appendTransform(one_end(false, OCIO::BIT_DEPTH_UINT10, OCIO::BIT_DEPTH_UINT12));
    if (look || kind == "lut1d") group->appendTransform(lut1d(n));
    group->write(OCIO::Config::CreateRaw(), "Academy/ASC Common LUT Format", std::cout);
    return 0;
}
