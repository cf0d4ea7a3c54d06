"""A readable text for modules and netlists in the tagged form.

`assemble` turns text into bytes and `disassemble` turns bytes into text.
Every byte string has a text, and assembling that text gives the same bytes
again. README.md beside this file describes the text.
"""

from skodderym_from_text import TextError, assemble
from skodderym_to_text import disassemble

__all__ = ["TextError", "assemble", "disassemble"]
