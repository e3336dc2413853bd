#!/usr/bin/env python3
"""luts.py FOLDER: writes the looks with large tables: lut1d_1024x3.clf, lut1d_65536x3.clf, lut3d_17_trilinear.clf, lut3d_17_tetrahedral.clf,
lut3d_33_trilinear.clf, lut3d_33_tetrahedral.clf (a cube of 17 or 33 entries along each axis, the same for the two methods) and six.clf (six nodes, with the
table of 1,024 entries)."""
import os
import sys

DEPTHS = 'inBitDepth="32f" outBitDepth="32f"'


def look(name, nodes):
    return '<?xml version="1.0" encoding="UTF-8"?>\n<ProcessList id="%s" compCLFversion="3.0">\n%s</ProcessList>\n' % (name, ''.join(nodes))


def lut1d(n):
    lines = []
    for i in range(n):
        x = i / (n - 1)
        lines.append('%.8g %.8g %.8g\n' % (x ** (1 / 2.2), x ** (1 / 2.4), x * x))
    return '<LUT1D %s>\n<Array dim="%d 3">\n%s</Array>\n</LUT1D>\n' % (DEPTHS, n, ''.join(lines))


def lut3d(n, interpolation):
    """Gamma, and some of each component in the others; blue fastest."""
    lines = []
    for i in range(n ** 3):
        r, g, b = (k / (n - 1) for k in (i // n // n, i // n % n, i % n))
        lines.append('%.8g %.8g %.8g\n' % ((0.9 * r + 0.1 * g) ** (1 / 2.2), (0.95 * g + 0.05 * b) ** (1 / 2.4), 0.1 * r + 0.9 * b * b))
    return '<LUT3D %s interpolation="%s">\n<Array dim="%d %d %d 3">\n%s</Array>\n</LUT3D>\n' % (DEPTHS, interpolation, n, n, n, ''.join(lines))


def values(min_in, max_in, min_out, max_out):
    return ('<Range %s style="Clamp">\n<minInValue>%s</minInValue>\n<maxInValue>%s</maxInValue>\n<minOutValue>%s</minOutValue>\n<maxOutValue>%s</maxOutValue>\n</Range>\n'
            % (DEPTHS, min_in, max_in, min_out, max_out))


def matrix(rows):
    return '<Matrix %s>\n<Array dim="3 %d">\n%s\n</Array>\n</Matrix>\n' % (DEPTHS, len(rows[0].split()), '\n'.join(rows))


CDL = ('<ASC_CDL %s style="Fwd">\n<SOPNode>\n<Slope>1.1 0.9 1.05</Slope>\n<Offset>-0.01 0.02 0.005</Offset>\n<Power>1 1 1</Power>\n</SOPNode>\n'
       '<SatNode>\n<Saturation>0.85</Saturation>\n</SatNode>\n</ASC_CDL>\n' % DEPTHS)

SIX = [
    values('0.0625', '0.9375', '0', '1'),
    matrix(['1.451439316146 -0.236510746894 -0.214928569252 0.015625',
            '-0.076553773396 1.176229699834 -0.099675926438 -0.03125',
            '0.008316148426 -0.006032449791 0.997716301365 0.0078125']),
    CDL,
    lut1d(1024),
    matrix(['0.9 0.07 0.03', '0.05 0.92 0.03', '0.02 0.08 0.9']),
    values('0.05', '0.95', '0.0625', '0.9375'),
]

os.makedirs(sys.argv[1], exist_ok=True)
LOOKS = [('lut1d_1024x3', [lut1d(1024)]), ('lut1d_65536x3', [lut1d(65536)]), ('six', SIX)]
for n in (17, 33):
    for interpolation in ('trilinear', 'tetrahedral'):
        LOOKS.append(('lut3d_%d_%s' % (n, interpolation), [lut3d(n, interpolation)]))
for name, nodes in LOOKS:
    with open(os.path.join(sys.argv[1], name + '.clf'), 'w', newline='\n') as f:
        f.write(look(name, nodes))
