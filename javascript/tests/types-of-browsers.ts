// Where the types of browsers are there, what is named of them is of them.

import { Label, Receipt } from 'virtual-receipt-printer';

export async function drawn(canvas: CanvasRenderingContext2D, file: File, answer: Response): Promise<void> {
  const [image] = await new Label().print(file, { signal: new AbortController().signal });
  canvas.putImageData(image.toImageData(), 0, 0);
  await new Receipt().print(answer);
  await new Receipt().print(answer.body!);
  const reader = answer.body!.pipeThrough(new Label().through()).getReader();
  await reader.read();
}
