import { useState } from 'react';
import { createRoot } from 'react-dom/client';
import { Preview } from './Preview.jsx';

function App() {
  const [zpl, type] = useState('^XA^PW400^LL120^FO20,20^A0N,40^FDHello^FS^XZ');
  return <>
    <textarea value={zpl} onChange={event => type(event.target.value)} />
    <Preview zpl={zpl} />
  </>;
}

createRoot(document.body.appendChild(document.createElement('main'))).render(<App />);
