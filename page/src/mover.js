// Rows go to another place in their table, as first fit takes them in their order: dragged by their handle, by its arrow keys, or by Alt and
// an arrow key in any cell.

// Before which row a height of the page lies; the empty row is the last and stays there.
function placeAt(rows, height) {
    const below = rows.findIndex(row => {
        const box = row.getBoundingClientRect();
        return height < box.top + box.height / 2;
    });
    return below < 0 ? rows.length : below;
}

// While a row is dragged a line shows where it would go.
function drag(body, row, start, onMove) {
    const { handle } = start;
    const others = [...body.rows].filter(each => each !== row);
    let place = null;

    function clear() {
        for (const each of body.rows) each.classList.remove('before', 'after', 'dragged');
    }
    function follow(event) {
        clear();
        row.classList.add('dragged');
        place = Math.min(placeAt(others, event.clientY), others.length - 1);
        others[place].classList.add('before');
    }
    function end(event) {
        handle.removeEventListener('pointermove', follow);
        handle.removeEventListener('pointerup', end);
        handle.removeEventListener('pointercancel', end);
        clear();
        if (event.type === 'pointerup' && place !== null) onMove(Number(row.dataset.id), place);
    }
    handle.setPointerCapture(start.pointer);
    handle.addEventListener('pointermove', follow);
    handle.addEventListener('pointerup', end);
    handle.addEventListener('pointercancel', end);
}

// onMove gets the row's id, its new place, and in which cell the keyboard was.
export function makeMover(body, onMove) {
    body.addEventListener('pointerdown', event => {
        const handle = event.target.closest('.handle');
        if (!handle || handle.disabled || event.button !== 0) return;
        drag(body, handle.closest('tr'), { handle, pointer: event.pointerId }, onMove);
    });
    body.addEventListener('keydown', event => {
        const step = { ArrowUp: -1, ArrowDown: 1 }[event.key];
        const row = event.target.closest('tr');
        if (!step || !row || !(event.altKey || event.target.matches('.handle'))) return;
        event.preventDefault();
        onMove(Number(row.dataset.id), row.sectionRowIndex + step, event.target.dataset.field ?? 'handle');
    });
}
