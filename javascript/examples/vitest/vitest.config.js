import { defineConfig } from 'vitest/config';

export default defineConfig({ test: { setupFiles: ['virtual-receipt-printer/vitest'] } });
