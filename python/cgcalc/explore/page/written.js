// Values as papers write them.
const TOKEN = /(Tiny|Miny)\((-?\d+(?:\/\d+)?)\)|(-?\d+(?:\/\d+)?)?((?:\^+|v+)\d*)?(\*\d*)?|\|+|\+-|./gy;

function number(text) {
  const [above, below] = text.replace('-', '').split('/');
  const sign = text.startsWith('-') ? '\u2212' : '';
  if (!below) return sign + above;
  return `${sign}<span class="frac"><span>${above}</span><span>${below}</span></span>`;
}

function arrows(text) {
  const digits = text.replace(/[\^v]/g, '');
  const size = digits ? Number(digits) : text.length;
  const up = text[0] === '^';
  if (size === 2) return up ? '⇑' : '⇓';
  return (size === 1 ? '' : `${size}·`) + (up ? '↑' : '↓');
}

function star(text) {
  return `<span class="star">∗</span>${text.slice(1)}`;
}

function plain(first, ups, nim) {
  const parts = [];
  if (first) parts.push(number(first));
  if (ups) parts.push(arrows(ups));
  if (nim) parts.push(star(nim));
  return parts.join('');
}

// A name such as {2|-1/2} in HTML.
export function written(name) {
  let html = '';
  TOKEN.lastIndex = 0;
  for (let at = 0; at < name.length;) {
    TOKEN.lastIndex = at;
    const [token, form, size, first, ups, nim] = TOKEN.exec(name) || [name[at]];
    if (!token) {
      const bars = /^\|+/.exec(name.slice(at));
      if (bars) {
        html += `<span class="bars">${bars[0]}</span>`;
        at += bars[0].length;
      } else if (name.startsWith('+-', at)) {
        html += '±';
        at += 2;
      } else {
        html += name[at] === ',' ? ',\u2009' : `<span class="brace">${escaped(name[at])}</span>`;
        at += 1;
      }
      continue;
    }
    if (form) html += `<b class="tiny">${form === 'Tiny' ? '+' : '\u2212'}</b><sub>${number(size)}</sub>`;
    else html += plain(first, ups, nim);
    at += token.length;
  }
  return `<span class="value" title="${escaped(name)}">${html}</span>`;
}

export function escaped(text) {
  const signs = { '&': '&amp;', '<': '&lt;', '>': '&gt;', '"': '&quot;' };
  return String(text).replace(/[&<>"]/g, (sign) => signs[sign]);
}

// A fraction such as -3/4 in HTML.
export function fraction(text) {
  return `<span class="value">${number(text)}</span>`;
}
