import { useEffect, useRef, useState } from 'react';
import { Label, VpError } from 'virtual-receipt-printer';

const printer = new Label({ mostImages: 1, mostSeconds: 2 });

/** A label as it is printed, drawn while its ZPL is typed. */
export function Preview({ zpl }) {
  const canvas = useRef(null);
  const [said, say] = useState('');

  useEffect(() => {
    const stop = new AbortController();
    printer.print(zpl, { signal: stop.signal }).then(({ images: [image], fault }) => {
      if (stop.signal.aborted) return;
      say(String(fault ?? ''));
      if (!image) return;
      Object.assign(canvas.current, { width: image.width, height: image.height });
      canvas.current.getContext('2d').putImageData(image.toImageData(), 0, 0);
    }).catch(error => {
      if (error instanceof VpError) say(error.message);
      else if (error.name !== 'AbortError') throw error;
    });
    return () => stop.abort();
  }, [zpl]);

  return <figure><canvas ref={canvas} /><figcaption>{said}</figcaption></figure>;
}
