(function () {
  // the minute of the plan whose printed time is that of this clock
  function minute(now) {
    var m = 60 * now.getHours() + now.getMinutes() - plan.start;
    if (plan.day !== null) return m + (Date.UTC(now.getFullYear(), now.getMonth(), now.getDate()) - plan.day) / 60000;
    m = (m + 1440) % 1440;
    return m > plan.end && 1440 - m < m - plan.end ? m - 1440 : m;
  }
  function each(kind, does) {
    [].slice.call(document.querySelectorAll('[data-' + kind + ']')).forEach(function (element) {
      does(element, +element.getAttribute('data-' + kind));
    });
  }
  function only(id, is) { document.getElementById(id).hidden = !is; }
  function show() {
    var now = new Date(), m = minute(now), charging = 0, waiting = 0, first = true;
    document.getElementById('as-at').textContent = '';
    document.getElementById('clock').textContent = now.toTimeString().slice(0, 5);
    each('from', function (bus, from) {
      bus.hidden = !(from <= m && m < +bus.getAttribute('data-to'));
      if (!bus.hidden) charging += 1;
    });
    each('start', function (bus, start) {
      bus.hidden = !(m < start && waiting < plan.shown);
      if (!bus.hidden) waiting += 1;
    });
    each('at', function (turn, at) {
      turn.hidden = m >= at + plan.kept;
      turn.className = turn.hidden ? '' : m >= at ? 'due' : first ? 'soon' : '';
      if (!turn.hidden && m < at) first = false;
      turn.querySelector('small').textContent = turn.hidden ? '' : m >= at ? 'now' : at - m < 100 ? 'in ' + (at - m) + ' min' : '';
    });
    only('nobody', charging === 0);
    only('none-waits', waiting === 0);
    only('before', m < 0);
    only('over', m >= plan.end + plan.kept);
  }
  show();
  setInterval(show, 2000);
})();
