// Run in a copy of a page by `page_looks.rs`: tells the frame around it what lies outside its place or upon something else.
addEventListener('load', () => {
  const wrong = []
  const box = element => element.getBoundingClientRect()
  const inside = (a, b) => a.left >= b.left - 1 && a.right <= b.right + 1 && a.top >= b.top - 1 && a.bottom <= b.bottom + 1
  const apart = (a, b) => a.right <= b.left || b.right <= a.left || a.bottom <= b.top + 1 || b.bottom <= a.top + 1
  // where a cell's letters are, whatever the cell's own size
  const letters = cell => {
    const range = document.createRange()
    range.selectNodeContents(cell)
    return range.getBoundingClientRect()
  }
  const tell = (what, ...elements) => wrong.push(what + ' ' + elements.map(element => element.textContent).join(' | '))

  const { scrollWidth, clientWidth } = document.documentElement
  if (scrollWidth > clientWidth) wrong.push('the page is ' + scrollWidth + ' wide')
  for (const element of document.querySelectorAll('h1, h2, p, footer, .scroll, pre, .refusal, .chart, .demand'))
    if (box(element).left < 0 || box(element).right > clientWidth) tell('outside the page:', element)

  const bars = document.querySelectorAll('.chart .piece')
  for (const chart of document.querySelectorAll('.chart')) {
    for (const row of chart.rows) {
      const [label, scale, figures] = row.cells
      const texts = [label, figures]
      if (!apart(letters(label), letters(figures))) tell('upon each other:', label, figures)
      for (const text of texts) {
        if (!inside(letters(text), box(chart))) tell('outside its drawing:', text)
        if (!apart(letters(text), box(scale))) tell('upon a bar:', text)
        if (parseFloat(getComputedStyle(text).fontSize) < 11) tell('too small:', text)
      }
      for (const shape of scale.querySelectorAll('rect, path'))
        if (!inside(box(shape), box(scale))) tell('outside its row:', row)
      const numbers = [...scale.querySelectorAll('text')]
      numbers.forEach((number, at) => {
        const beside = numbers[at + 1] || figures
        const its = beside === figures ? letters(figures) : box(beside)
        if (!apart(box(number), its)) tell('upon each other:', number, beside)
        if (box(number).left < 0 || box(number).right > clientWidth) tell('outside the page:', number)
        if (parseFloat(getComputedStyle(number).fontSize) < 11) tell('too small:', number)
      })
    }
  }
  for (const bar of bars) {
    const [own, budget, charged] = ['.window', '.budget', '.charged'].map(name => bar.querySelector(name)).map(part => part && box(part))
    if (!own) continue
    if (budget.right > own.right + 1) tell('longer than its window:', bar)
    if (!apart(charged, own)) tell('charged upon the window:', bar)
  }
  const plots = document.querySelectorAll('.plot')
  for (const plot of plots) {
    const [levels, plane, lengths] = plot.children
    const figure = box(plot.closest('.demand'))
    const texts = [...plot.querySelectorAll('text')]
    texts.forEach((text, at) => {
      if (!inside(box(text), figure)) tell('outside its drawing:', text)
      if (parseFloat(getComputedStyle(text).fontSize) < 11) tell('too small:', text)
      for (const other of texts.slice(at + 1)) if (!apart(box(text), box(other))) tell('upon each other:', text, other)
    })
    if (box(levels).right > box(plane).left) tell('upon a drawing:', levels)
    if (box(plane).width < 150) tell('too narrow:', plane)
    for (const shape of plane.querySelectorAll('path, rect')) if (!inside(box(shape), box(plane))) tell('outside its drawing:', plane)
  }
  const name = location.pathname.split('/').pop().replace('-looked-at.html', '')
  parent.postMessage([name + ' ' + innerWidth + ': ' + bars.length + ' bars, ' + plots.length + ' curves', ...wrong].join('; '), '*')
})
