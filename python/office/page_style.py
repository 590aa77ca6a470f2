"""How a page looks: on a wide and on a narrow screen, light, dark and in print. It stands in the page itself, since nothing is loaded."""

from __future__ import annotations

from .page_markup import Markup

# A mark has a colour and a pattern of its own, and a word in its row: in plain, high striped, over crossed. Each colour has the contrast
# that text or a drawing needs on its ground.
LIGHT = """
--paper:#fff;--panel:#f4f6f9;--ink:#1b2027;--soft:#525a65;--rule:#d3d8df;--strong:#727a85;--link:#0b5394;
--mid:#f2f0ea;--far:#f0e6e4;--limit:#727a85;--average:#1b2027;
--in:#7fb0d8;--in-edge:#2b669b;--high:#fbe3a8;--high-edge:#8f5c00;--over:#c8402f;--over-lines:#7a1a10;--over-edge:#7a1a10;
"""
DARK = """
--paper:#15181d;--panel:#1e232a;--ink:#e9ecf0;--soft:#b3bac4;--rule:#353c46;--strong:#76808d;--link:#8fc1f2;
--mid:#22231f;--far:#2c2120;--limit:#76808d;--average:#e9ecf0;
--in:#3f79ab;--in-edge:#8dc0ec;--high:#5b4513;--high-edge:#f3c14f;--over:#b33d2f;--over-lines:#ffb4a6;--over-edge:#ffa091;
"""

BASE = """
*{box-sizing:border-box}
html{-webkit-text-size-adjust:100%}
body{margin:0;background:var(--paper);color:var(--ink);overflow-wrap:break-word;
font:1rem/1.5 system-ui,-apple-system,"Segoe UI",Roboto,"Helvetica Neue",Arial,sans-serif}
body>header,main,body>footer{max-width:72rem;margin:0 auto;padding:0 1.25rem}
body>header{padding-top:2rem}
.kicker{margin:0 0 .2rem;color:var(--soft);font-weight:600;letter-spacing:.04em}
h1{font-size:1.9rem;line-height:1.2;margin:0 0 .75rem}
h2{font-size:1.35rem;line-height:1.25;margin:0 0 .6rem}
p{margin:0 0 .7rem;max-width:46rem}
p,.steps li,dd small,.name{white-space:pre-wrap}
section{margin:2.6rem 0;scroll-margin-top:1rem}
a{color:var(--link)}
.verdict{font-size:1.15rem;max-width:50rem}
.unseen{position:absolute;width:1px;height:1px;margin:-1px;overflow:hidden;clip-path:inset(50%);white-space:nowrap}
.shapes{position:absolute}
dl.tiles{display:grid;grid-template-columns:repeat(auto-fit,minmax(9.5rem,1fr));gap:.6rem;margin:1.2rem 0}
dl.tiles div{background:var(--panel);border:1px solid var(--rule);border-radius:6px;padding:.55rem .8rem}
dt{color:var(--soft);font-size:.85rem}
dd{margin:0;font-size:1.25rem;font-weight:600;font-variant-numeric:tabular-nums;overflow-wrap:anywhere}
dd small{display:block;font-size:.85rem;font-weight:400}
nav ul{list-style:none;display:flex;flex-wrap:wrap;gap:.3rem 1.3rem;margin:1rem 0 0;padding:.7rem 0;border-block:1px solid var(--rule)}
body>footer{border-top:1px solid var(--rule);margin-top:3rem;padding-block:1.2rem 3rem;font-size:.92rem}
summary{cursor:pointer;padding:.3rem 0;font-weight:600}
details{margin:.4rem 0 1rem}
pre{overflow:auto;max-height:24rem;background:var(--panel);border:1px solid var(--rule);border-radius:6px;
padding:.8rem;font-size:.85rem;line-height:1.4}
ol.steps{padding-left:2.6rem;max-width:50rem}
ol.steps li{margin-bottom:.5rem;padding-left:.3rem}
li:target{background:var(--panel);outline:2px solid var(--strong)}
:focus-visible{outline:2px solid var(--link);outline-offset:2px}
"""

TABLES = """
table{border-collapse:collapse;font-variant-numeric:tabular-nums;width:100%}
caption{text-align:left;color:var(--soft);padding-bottom:.5rem;font-size:.92rem}
th,td{padding:.2rem .55rem;text-align:right;border-bottom:1px solid var(--rule);font-weight:400;vertical-align:middle}
thead th{font-size:.85rem;font-weight:600;vertical-align:bottom;border-bottom:1px solid var(--strong);line-height:1.25}
th[scope=row],.name,.words{text-align:left}
.name{overflow-wrap:anywhere}
.box{overflow-x:auto;position:relative;margin:1rem 0}
td small,th small{font-size:.8rem;color:var(--soft);display:block;font-weight:400}
.methods{table-layout:fixed;min-width:54rem}
.methods td,.methods th{padding-inline:.3rem .9rem}
.methods thead th{padding-inline-start:0;font-size:.8rem}
.methods thead tr>:first-child{width:21%;padding-inline-start:.3rem}
.methods.seats td:has(b){background:var(--mid)}
.methods .own{background:var(--panel);border-inline:2px solid var(--strong)}
.methods i{font-style:normal;font-size:.7em;vertical-align:.1em}
.methods td i{position:absolute;margin-left:.2em;padding-top:.35em}
.methods.short td{font-size:.92rem;white-space:nowrap}
.methods.short td.name{font-size:.85rem;white-space:pre-wrap;text-align:right}
.houses tr.own>*{background:var(--panel);font-weight:700;border-block:2px solid var(--strong)}
.houses th[scope=row]{white-space:nowrap}
.houses small{display:inline;margin-left:.5em}
.houses .name{min-width:8rem}
.houses td.bar,.houses th.bar{min-width:14rem;width:40%}
"""

BARS = """
.departures{font-size:.95rem}
.departures .name{min-width:min(calc(var(--longest) + 1.1rem),22vw)}
.departures td.bar,.departures th.bar{width:100%;min-width:14rem}
.departures.close{font-size:.86rem;line-height:1.2}
.departures.close th,.departures.close td{padding-block:0}
.departures thead th{position:sticky;top:0;background:var(--paper);z-index:1}
td.bar,th.bar{padding-block:0!important}
td.people,td.seats,td.departure{white-space:nowrap}
td.bar svg,th.bar svg{display:block;width:100%;overflow:visible}
.moved{text-align:left!important;white-space:nowrap}
td.moved{color:var(--soft)}
.moved b{color:var(--ink)}
.mark{text-align:left!important}
tr.high .mark,tr.over .mark,tr.over .departure{font-weight:700}
tr.apart th{padding-top:1rem;font-weight:600;text-align:left}
tr.none td.bar{text-align:center;color:var(--soft);font-size:.85rem}
svg text{fill:var(--soft);font-size:11px}
th.bar svg text{font-size:10px}
svg .middle{text-anchor:middle}svg .end{text-anchor:end}
svg .before{text-anchor:end;transform:translateX(-6px)}svg .after{transform:translateX(6px)}
rect.in{fill:var(--in);stroke:var(--in-edge)}
rect.high{fill:url(#fill-high);stroke:var(--high-edge)}
rect.over{fill:url(#fill-over);stroke:var(--over-edge)}
.ground-high{fill:var(--high)}.lines-high{stroke:var(--high-edge);stroke-width:1.6}
.ground-over{fill:var(--over)}.lines-over{stroke:var(--over-lines);stroke-width:1}
.mid{fill:var(--mid)}.far{fill:var(--far)}
.limit{stroke:var(--limit);stroke-dasharray:3 3}.average{stroke:var(--average);stroke-width:1.5}
.gap{fill:var(--far)}.head{fill:var(--over-edge)}
.way{stroke:var(--ink);stroke-width:1.5;marker-start:url(#tail);marker-end:url(#tip)}
.way.beyond{marker-start:none;stroke-dasharray:4 2}
#tip path,#tail path{fill:var(--ink)}
ul.legend{list-style:none;display:flex;flex-wrap:wrap;gap:.3rem 1.4rem;padding:0;margin:.8rem 0}
ul.legend li{display:flex;align-items:center;gap:.45rem;font-size:.92rem}
ul.legend svg{flex:none}
"""

# On a narrow screen a state has two lines: its words and numbers, and the bar below them at full width.
NARROW = """
h1{font-size:1.5rem}
body>header,main,body>footer{padding-inline:.9rem}
.departures,.departures tbody,.departures thead,.departures caption{display:block}
.departures tr{display:grid;grid-template-columns:1fr auto auto;column-gap:.6rem;padding:.35rem 0 .25rem}
.departures th,.departures td,.departures.close th,.departures.close td{border:0;padding:0}
.departures td.bar,.departures th.bar{grid-column:1/-1;grid-row:3;width:auto;min-width:0}
.departures .name{min-width:0;font-weight:600;overflow-wrap:anywhere}
.departures .departure{grid-column:2;grid-row:1}
.departures .mark{grid-column:3;grid-row:1;min-width:2.6rem}
.departures .people{grid-column:1;grid-row:2;text-align:left;color:var(--soft);font-size:.85rem}
.departures td.people::before{content:"people: "}
.departures .seats{grid-column:2/4;grid-row:2;color:var(--soft);font-size:.85rem}
.departures td.seats::before{content:"seats: "}
.departures .moved{grid-column:1/-1;grid-row:4;font-size:.85rem;white-space:normal}
.departures .moved:empty{display:none}
.departures tr.apart th{grid-column:1/-1;padding-top:1rem}
.departures thead{position:sticky;top:0;background:var(--paper);z-index:1;border-bottom:1px solid var(--strong)}
.departures thead th{position:static}
.departures thead th:not(.bar){position:absolute;width:1px;height:1px;overflow:hidden;clip-path:inset(50%)}
.departures tr{border-bottom:1px solid var(--rule)}
.departures thead tr{border:0}
.houses{width:max-content;min-width:100%}
.houses small{display:block;margin:0}
.houses td.bar,.houses th.bar{min-width:9rem}
.methods{min-width:58rem}
.methods thead tr>:first-child{width:8.5rem}
.methods tr>:first-child,.houses tr:not(.own)>:first-child{background:var(--paper)}
.methods tr>:first-child,.houses tr>:first-child{position:sticky;left:0;z-index:1}
caption span{display:block;position:sticky;left:0;max-width:calc(100vw - 2rem)}
"""

# What is folded is printed too. A browser that cannot open it by itself says so where it would stand.
PRINT = """
@page{margin:12mm}
html{font-size:10pt}
body{line-height:1.4}
body>header,main,body>footer,p,.verdict,ol.steps{max-width:none}
body>header,main,body>footer{padding:0}
nav{display:none}
section{margin:1.2rem 0}
h1{font-size:17pt}h2{font-size:13pt}h2,h2+p{break-after:avoid}
p,li{orphans:3;widows:3}
tr,li,dl.tiles,.short,.houses{break-inside:avoid}
thead{display:table-header-group;break-after:avoid}
tbody tr:first-child{break-before:avoid}
caption,.legend,summary{break-after:avoid}
table,.departures,.departures.close{font-size:8pt;line-height:1.25}
caption{font-size:8.5pt}
thead th,td small,th small,.methods.short td,.methods.short td.name,tr.none td.bar{font-size:7.5pt}
th,td{padding:.1rem .25rem}
svg text,th.bar svg text{font-size:8px}
.departures .name{min-width:calc(var(--longest)*.85 + .6rem)}
.departures td.bar,.departures th.bar{min-width:0}
dl.tiles{grid-template-columns:repeat(5,1fr)}
dl.tiles div{padding:.3rem .5rem}
dd{font-size:11pt}
p:has(+.box){break-after:avoid}
.methods{min-width:0}
.methods td,.methods th{padding-inline:.2rem .8rem}
.departures thead th{position:static}
.box,pre{overflow:visible;max-height:none}
pre{white-space:pre-wrap;columns:2}
a{color:inherit;text-decoration:none}
svg,.own{print-color-adjust:exact;-webkit-print-color-adjust:exact}
details::details-content{content-visibility:visible;height:auto;display:block}
"""
UNOPENED = 'details:not([open])>summary::after{content:" (folded: open it before printing)"}'


def style() -> Markup:
    """The page's whole style."""
    return Markup(
        f":root{{color-scheme:light dark;{LIGHT}}}{BASE}{TABLES}{BARS}"
        f"@media screen and (prefers-color-scheme:dark){{:root{{{DARK}}}}}"
        f"@media screen and (max-width:64rem){{{NARROW}}}"
        f"@media print{{:root{{color-scheme:light;--paper:#fff;--ink:#000;--soft:#333}}{PRINT}"
        f"@supports not selector(details::details-content){{{UNOPENED}}}}}"
    )
