// The package: what it gives to whom it is imported by.

import { Fault } from '../../recipes/web/vp.js';
import { requests } from './asking.js';
import { VpError } from './errors.js';
import { list } from './listing.js';
import { version } from './module.js';
import { Paper } from './paper.js';
import { Picture } from './pictures.js';
import { Label, Printer, Receipt } from './printers.js';
import { PrinterWorker } from './worker.js';

export { Fault, Label, Paper, Picture, Printer, PrinterWorker, Receipt, VpError, list, requests, version };
