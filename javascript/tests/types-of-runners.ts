// Expectations of vitest, whose types are stand-ins here.

import 'virtual-receipt-printer/vitest';
import { expect } from 'vitest';
import { Label } from 'virtual-receipt-printer';

export const compared: Promise<void> = expect(new Label().print('^XA^XZ')).toMatchPaper({ name: 'second' });
