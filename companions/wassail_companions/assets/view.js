(function () {
  var rows = Array.prototype.slice.call(document.querySelectorAll('#rows tr.kept'));
  function here() {
    var found = document.activeElement && document.activeElement.closest ? document.activeElement.closest('#rows tr') : null;
    return rows.indexOf(found);
  }
  function go(index) {
    if (index < 0 || index >= rows.length) return;
    rows[index].setAttribute('tabindex', '-1');
    rows[index].focus({ preventScroll: true });
    rows[index].scrollIntoView({ block: 'center' });
  }
  document.addEventListener('keydown', function (event) {
    if (event.ctrlKey || event.metaKey || event.altKey) return;
    if (event.target.closest && event.target.closest('input:not([type=checkbox]), textarea, select')) return;
    var criterion = rows.findIndex(function (row) { return row.classList.contains('criterion'); });
    if (event.key === 'j') go(here() < 0 ? 0 : here() + 1);
    else if (event.key === 'k') go(here() < 0 ? rows.length - 1 : here() - 1);
    else if (event.key === 'c') go(criterion);
  });
})();
