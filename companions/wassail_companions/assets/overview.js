(function () {
  var table = document.getElementById('functions'), body = table.tBodies[0], rows = Array.prototype.slice.call(body.rows);
  var filter = document.getElementById('filter'), told = document.getElementById('told');
  var texts = null;
  function apply() {
    var wanted = filter.value.trim().toLowerCase(), shown = 0;
    if (wanted === '' && !texts) { told.textContent = rows.length + ' of ' + rows.length + ' functions'; return; }
    texts = texts || rows.map(function (row) { return (row.cells[0].textContent + ' ' + (row.cells[1].title || row.cells[1].textContent)).toLowerCase(); });
    rows.forEach(function (row, index) {
      var away = wanted !== '' && texts[index].indexOf(wanted) < 0;
      row.classList.toggle('away', away);
      if (!away) shown++;
    });
    told.textContent = shown + ' of ' + rows.length + ' functions';
  }
  filter.addEventListener('input', apply);
  Array.prototype.forEach.call(table.querySelectorAll('th a'), function (button) {
    button.addEventListener('click', function (event) {
      event.preventDefault();
      // Numbers and names rise first, sizes and counts fall first; the other way the second time.
      var head = button.parentNode, column = head.cellIndex, sorted = head.getAttribute('aria-sort');
      var up = sorted ? sorted === 'descending' : column < 2;
      Array.prototype.forEach.call(table.querySelectorAll('th[aria-sort]'), function (other) { other.removeAttribute('aria-sort'); });
      head.setAttribute('aria-sort', up ? 'ascending' : 'descending');
      var keyed = Array.prototype.map.call(body.rows, function (row) {
        var text = row.cells[column].textContent;
        return { row: row, key: column === 1 ? text : parseInt(text, 10) || 0 };
      });
      keyed.sort(function (a, b) { return (a.key < b.key ? -1 : a.key > b.key ? 1 : 0) * (up ? 1 : -1); });
      keyed.forEach(function (one) { body.appendChild(one.row); });
    });
  });
  // Links between functions, made when they are first seen.
  body.addEventListener('toggle', function (event) {
    Array.prototype.forEach.call(event.target.querySelectorAll('i:not(.linked)'), function (numbers) {
      var all = numbers.textContent.split(' ');
      numbers.textContent = '';
      numbers.className = 'linked';
      all.forEach(function (number, at) {
        var link = document.createElement('a');
        link.href = '#f' + number;
        link.textContent = number;
        numbers.append(at ? ' ' : '', link);
      });
    });
  }, true);
  function open(all) {
    Array.prototype.forEach.call(body.querySelectorAll('tr:not(.away) details'), function (one) { one.open = all; });
  }
  document.getElementById('open').addEventListener('click', function () { open(true); });
  document.getElementById('close').addEventListener('click', function () { open(false); });
  // Lines that come into sight may be higher than was reckoned, and move the one that a link leads to: it is brought back.
  function bring(row, times) {
    row.scrollIntoView();
    if (times) requestAnimationFrame(function () { bring(row, times - 1); });
  }
  function follow() {
    var found = document.getElementById(location.hash.slice(1));
    if (!found || !body.contains(found)) return;
    if (found.classList.contains('away')) { filter.value = ''; apply(); }
    bring(found, 3);
  }
  window.addEventListener('hashchange', follow);
  apply();
  follow();
})();
