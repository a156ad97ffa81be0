"""vp: a virtual printer of receipts (ESC/POS) and labels (ZPL II), in process.

    paper = vp.Receipt().print(stream)
    paper.png()
"""
from .faults import BadArgument, BadSheet, Closed, Fault, NoLibrary, NoMemory, TooMuchPaper, VpError
from .images import Image
from .library import Held, version
from .listing import Item, Listing, list_stream as list
from .paper import Paper
from .printers import Label, Printer, Receipt
from .sheets import SHIPPED

__all__ = ['BadArgument', 'BadSheet', 'Closed', 'Fault', 'Held', 'Image', 'Item', 'Label', 'Listing', 'NoLibrary',
           'NoMemory', 'Paper', 'Printer', 'Receipt', 'SHIPPED', 'TooMuchPaper', 'VpError', 'list', 'version']
