"""The style of a page: one column that prints on A4, black on white. Colour says nothing that words and frames do not say."""

STYLE = """
@page { size: A4; margin: 18mm 20mm 20mm }
:root { --ink: #1b1b1b; --soft: #5c5c5c; --rule: #9a9a9a; --paper: #ffffff; --tint: #f4f1ea; --good: #1d5b34; --bad: #97261b }
* { box-sizing: border-box }
html { background: #e9e6df }
body { margin: 0 auto; max-width: 210mm; padding: 18mm 20mm 20mm; background: var(--paper); color: var(--ink);
  font: 11.5pt/1.5 "Source Serif 4", "Source Serif Pro", Charter, "Bitstream Charter", "Iowan Old Style", "Palatino Linotype",
    Palatino, "Book Antiqua", Georgia, "Liberation Serif", "Times New Roman", serif;
  font-variant-numeric: lining-nums }
h1 { font-size: 23pt; line-height: 1.15; font-weight: 600; margin: 0 0 2mm; letter-spacing: .003em }
h2 { font-size: 15pt; line-height: 1.25; font-weight: 600; margin: 0 0 3mm }
h3 { font-size: 11.5pt; font-weight: 600; font-style: italic; margin: 6mm 0 1.5mm; break-after: avoid }
p { margin: 0 0 2.5mm; orphans: 3; widows: 3 }
header { border-bottom: 1.5pt solid var(--ink); padding-bottom: 4mm; margin-bottom: 8mm }
.file { color: var(--soft); margin: 0 }
code { font: 9.5pt/1.4 "Source Code Pro", Menlo, Consolas, "DejaVu Sans Mono", "Liberation Mono", monospace; overflow-wrap: anywhere }
section { margin: 0 0 10mm }
section.certificate { border-top: .6pt solid var(--rule); padding-top: 6mm }
.badge { float: right; font-size: 10pt; font-weight: 600; padding: .4mm 3mm; border: 1pt solid currentColor; border-radius: 1.2mm;
  letter-spacing: .02em }
.accepted .badge { color: var(--good) }
.refused .badge { color: var(--bad); border-style: double; border-width: 2.2pt }
.verdict { font-size: 12.5pt; margin-bottom: 3mm; padding: 2.5mm 4mm; background: var(--tint); border-left: 2.5pt solid var(--ink) }
.accepted .verdict { border-left-color: var(--good) }
.refused .verdict { border-left-color: var(--bad); border-left-style: double; border-left-width: 4pt }
.f { white-space: nowrap }
.f:has(span) { white-space: normal }
td span, .f span { white-space: nowrap }
sub { font-size: .68em; line-height: 0 }
table { border-collapse: collapse; margin: 1.5mm 0 3.5mm 8mm; font-variant-numeric: lining-nums tabular-nums }
td, th { padding: .5mm 1.2mm; vertical-align: baseline; font-weight: normal; text-align: left }
tr { break-inside: avoid }
.sum th, .rows th, .step tbody th { color: var(--soft); font-size: 10pt }
.sum th { padding-left: 6mm }
.rows th { padding-right: 5mm }
.l { text-align: right }
.l:has(span) { text-align: left }
tr:has(.l span) > * { vertical-align: bottom }
.r { white-space: nowrap; padding-left: 0 }
.w { text-align: right; padding-right: 4mm; white-space: nowrap }
.total td, .total th { border-top: 1pt solid var(--ink); padding-top: 1.2mm }
.total .w { color: var(--soft); font-style: italic }
.none { color: var(--soft); font-style: italic }
.step thead th { padding-left: 1.2mm }
.step thead th:nth-child(n + 3) { padding-left: 5mm }
.step thead th, .run tr:first-child th { border-bottom: 1pt solid var(--ink); font-size: 10pt; color: var(--soft) }
.step .v, .run td, .run th { padding-right: 5mm }
.step .v { padding-left: 5mm; white-space: nowrap }
.across td { text-align: center; padding: .5mm 2.2mm }
.across th { padding-right: 5mm; font-size: 10pt; color: var(--soft) }
.across tr:first-child > * { border-bottom: 1pt solid var(--ink) }
.that { font-weight: 500 }
.so { margin-top: 4mm; padding-top: 3mm; border-top: .6pt dotted var(--rule) }
.fails { border: 1pt solid var(--bad); padding: 2mm 3.5mm; break-inside: avoid }
.warning { border: 1pt solid var(--ink); border-left-width: 3pt; padding: 2.5mm 4mm; margin: 4mm 0; break-inside: avoid }
.disagree { color: #c00000; border: 2pt solid #c00000; padding: 2.5mm 4mm; font-weight: 700 }
mark { background: none; color: inherit; border: 1pt solid var(--bad); outline: 1pt solid var(--bad); outline-offset: 1pt;
  padding: 0 .8mm; margin: 0 .4mm; white-space: nowrap }
.bytes { margin-left: 8mm; line-height: 1.9 }
.line { color: var(--soft); font-size: 10pt; margin: 4mm 0 0 }
.follows, .components { margin: 0 0 3mm; padding-left: 6mm }
.follows li, .components li { margin-bottom: 1mm }
figure { margin: 4mm 0 4mm 0; break-inside: avoid }
figcaption { font-size: 10pt; color: var(--soft); margin-top: 1mm }
svg { display: block; width: 100%; height: auto; font-size: 11px; font-family: inherit }
svg text { fill: #1b1b1b }
svg .value { font-weight: 600; paint-order: stroke; stroke: #ffffff; stroke-width: 3px; stroke-linejoin: round }
svg .axis { stroke: #1b1b1b; stroke-width: 1 }
svg .area { fill: #efeae0 }
svg .stairs { fill: none; stroke: #1b1b1b; stroke-width: 2.2; stroke-linejoin: round }
svg .level { stroke: #1b1b1b; stroke-width: 1.2; stroke-dasharray: 7 4 }
svg .split { stroke: #1b1b1b; stroke-width: 1.2; stroke-dasharray: 1 3 }
footer { border-top: .6pt solid var(--rule); padding-top: 3mm; color: var(--soft); font-size: 10pt }
@media print {
  html { background: none }
  body { max-width: none; padding: 0; font-size: 10.5pt; line-height: 1.42 }
  .verdict { font-size: 11.5pt }
  section { margin-bottom: 7mm }
  section.certificate.refused { break-inside: avoid }
  .verdict { -webkit-print-color-adjust: exact; print-color-adjust: exact }
}
"""
