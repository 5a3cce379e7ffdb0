// Which row each box is drawn in, so that none overlap. A box keeps its row while it is seen: nothing jumps when the view moves.

const APART = 3; // pixels between two boxes of a row

export class Lanes {
  constructor(most) {
    this.most = most;
    this.kept = new Map(); // rows by keys, of what is seen
    this.scale = 0;
  }

  // What takes another one's place takes its row.
  follow(old, fresh) { if (this.kept.has(old)) this.kept.set(fresh, this.kept.get(old)); }

  // Gives each box {key, low, high, reach} a row, from the left on. Those that are left over have none.
  pack(boxes, width, scale) {
    const rows = [], seen = box => box.high > 0 && box.low < width;
    const fits = (row, box) => !rows[row] || rows[row].every(other => other.reach + APART <= box.low || box.reach + APART <= other.low);
    const put = (row, box) => { (rows[row] ||= []).push(box); box.row = row; };
    const later = [];
    for (const box of boxes) {
      const row = this.kept.get(box.key);
      if (row !== undefined && seen(box) && fits(row, box)) put(row, box); else later.push(box);
    }
    let left = 0;
    for (const box of later) {
      let row = 0;
      while (row < this.most && !fits(row, box)) row += 1;
      if (row < this.most) put(row, box); else left += 1;
    }
    const drawn = boxes.filter(box => box.row !== undefined);
    if (scale !== this.scale) closeUp(drawn, seen);
    this.scale = scale;
    this.kept = new Map(drawn.filter(seen).map(box => [box.key, box.row]));
    return { boxes: drawn, rows: Math.max(0, ...this.kept.values()) + 1, left };
  }
}

// Rows of which nothing is seen are left out, so that what is seen is together. This moves rows, so it is for another scale.
function closeUp(boxes, seen) {
  const places = new Map([...new Set(boxes.filter(seen).map(box => box.row))].sort((a, b) => a - b).map((row, at) => [row, at]));
  for (const box of boxes) box.row = places.get(box.row) ?? places.size + box.row;
}
