#!/usr/bin/env python3
"""hostile.py FOLDER: writes files of 1, 4 and 16 MiB that are made to cost a reader much."""
import os
import sys

LIST = b'<?xml version="1.0" encoding="UTF-8"?><ProcessList id="a" compCLFversion="3.0">'
END = b'</ProcessList>'
NODE = b'<ASC_CDL inBitDepth="32f" outBitDepth="32f"/>'
NAMED = b'<ASC_CDL inBitDepth="32f" outBitDepth="32f" id="cam4"/>'
LONG_NAME = b'<ASC_CDL inBitDepth="32f" outBitDepth="32f" id="abcdefghijklmnopqrstuvwxyz.12345"/>'
INFO = LIST + b'<Info>'
INFO_END = b'</Info>' + NODE + END
EQUAL_PREFIX = b'<a' + b''.join(b' ' + b'p' * 30 + b'%02d="1"' % i for i in range(16)) + b'/>'

# name: what stands before, the part that is repeated, what stands behind
FILES = {
    'all_less': (LIST, b'<', b''),
    'all_less_file': (b'', b'<', b''),
    'amp_in_info': (INFO, b'&amp;', INFO_END),
    'one_comment': (LIST + b'<!--', b' x', b'-->' + NODE + END),
    'one_comment_dashes': (LIST + b'<!--', b'- ', b'-->' + NODE + END),
    'one_token': (LIST + b'<Matrix inBitDepth="8i" outBitDepth="8i"><Array dim="3 3">', b'1', b' </Array></Matrix>' + END),
    'info_16_deep': (INFO, b'<a>' * 16 + b'</a>' * 16, INFO_END),
    'attributes_16': (INFO, EQUAL_PREFIX, INFO_END),
    'white_space': (LIST, b' ', NODE + END),
    'one_name': (INFO + b'<', b'a', b'/>' + INFO_END),
    'one_attribute_text': (INFO + b'<a b="', b'x', b'"/>' + INFO_END),
    'one_description': (LIST + b'<Description>', b'x', b'</Description>' + NODE + END),
    'many_nodes': (LIST, NODE, END),
    'many_named_nodes': (LIST, NAMED, END),
    'many_long_names': (LIST, LONG_NAME, END),
}

os.makedirs(sys.argv[1], exist_ok=True)
for name, (before, part, behind) in FILES.items():
    for mib in (1, 4, 16):
        count = ((mib << 20) - len(before) - len(behind)) // len(part)
        with open(os.path.join(sys.argv[1], '%s_%02d' % (name, mib)), 'wb') as f:
            f.write(before + part * count + behind)
