// What was copied from a spreadsheet. Nothing here touches a page.

// The cells of a column, the uppermost first: null of a text of one line, and { is_wide: true } of cells beside each other. The line
// feed behind the last cell isn't a cell.
export function column_of(text) {
  const lines = lines_of(text);
  if (lines.length < 2) return null;
  return { is_wide: lines.some((line) => line.includes('\t')), cells: lines };
}

// The rows of a block, each a list of its cells; null of a single cell.
export function block_of(text) {
  const rows = lines_of(text).map((line) => line.split('\t'));
  return rows.length > 1 || rows[0].length > 1 ? rows : null;
}

const lines_of = (text) => text.replace(/\r\n?/g, '\n').replace(/\n$/, '').split('\n');
