/*
 * How the report looks, on a screen and on A4. Nothing is told by colour alone, and what tells something is drawn by
 * frames and signs, which printers do not leave out as they may leave out backgrounds.
 */
#include "html.h"
#include "sections.h"

#include <stdio.h>

static const char *const rules[] = {
    "body{font:10pt/1.35 'Liberation Sans','DejaVu Sans',Arial,sans-serif;color:#000;background:#fff;max-width:186mm;"
    "margin:8mm auto;padding:0 2mm}\n",
    "h1{font-size:17pt;margin:0}\nh2{font-size:13pt;border-top:.6mm solid #000;padding-top:2mm;margin:7mm 0 2mm}\n"
    "h3{font-size:11pt;margin:5mm 0 1mm}\nh4{font-size:9.5pt;margin:4mm 0 1mm}\np,ul{margin:1.5mm 0}\n",
    "code,table{font-family:'Liberation Mono','DejaVu Sans Mono',Consolas,monospace;font-size:8.5pt}\n"
    "table{border-collapse:collapse;margin:2mm 0}\nth{font-weight:normal;text-align:left}\n"
    "td,th{padding:.3mm 1.2mm;vertical-align:top}\nthead th{border-bottom:.2mm solid #000}\n"
    "a{color:#000}\n#folder{overflow-wrap:anywhere}\n",
    "#verdict{border:.8mm solid #000;padding:0 4mm 2mm;margin-top:4mm}\n#verdict h2{border:0;margin-top:2mm}\n"
    ".answer{font-size:11.5pt}\n#verdict.refused,#verdict.stopped{border-style:double;border-width:1.6mm}\n",
    "#files td,#files th,#stamp td,#stamp th,#line td,#line th{border:.2mm solid #000}\n.sum{word-break:break-all;font-size:7pt;min-width:96mm}\n"
    ".size{white-space:nowrap}\n#stamp td{min-width:36mm}\n",
    "#line td{white-space:nowrap;font-size:9pt}\n#line td.long{white-space:normal;word-break:break-all}\n#line td.more,#line td.missing{white-space:normal}\n#line td.bad{border:.8mm solid #000;font-weight:bold}\n"
    "#line td.missing,#line td.more,#line td.none{font-style:italic}\n.x{border:.2mm dotted #000;font-weight:normal}\n",
    ".map td{width:4mm;height:4mm;min-width:4mm;padding:0;border:.2mm solid #888;text-align:center;vertical-align:middle;"
    "font:7pt/3.6mm 'Liberation Mono','DejaVu Sans Mono',monospace;color:#777}\n"
    ".map th{font-size:5.5pt;padding:0 .6mm;text-align:center;border:0}\n.map tbody th{text-align:right;vertical-align:middle}\n"
    ".map{border-collapse:separate;border-spacing:.35mm}\n"
    ".map td.written{border:.7mm solid #000;color:#000;font-weight:bold;background:#e4e4e4}\n.map.key th{font-size:8pt;padding-right:3mm}\n",
    ".list td{text-align:right}\n.bytes td.b{padding:.1mm .5mm;min-width:4ch;text-align:center;line-height:1.05}\n"
    ".bytes th{padding-right:2mm}\n.bytes td.text{white-space:pre;padding-left:3mm}\n.bytes td.some{border:.2mm solid #000}\n"
    ".bytes td.all{color:#555}\n.bytes .same td,.alike{font-style:italic}\n.bytes .same td{padding-left:14mm}\n",
    "#listing tbody{border-top:.15mm solid #777}\n"
    "#listing td{padding:0 1.1mm;white-space:nowrap}\n#listing .n,#listing .t{text-align:right}\n#listing td.br{width:1mm;padding:0}\n"
    "#listing .tied .br{border-left:.6mm solid #000}\n#listing .tied tr:first-child .br{border-top:.6mm solid #000}\n"
    "#listing .tied tr:last-child .br{border-bottom:.6mm solid #000}\n"
    "#listing tr.bad td:not(.br){font-weight:bold;border-top:.4mm solid #000;border-bottom:.4mm solid #000}\n",
    "tr,.whole,.map,#verdict p{break-inside:avoid}\nh1,h2,h3,h4,h3+p{break-after:avoid}\n",
};

/* On paper each sheet tells which trace it is of. */
static void put_sheets(const struct desk *desk)
{
    put("@page{size:A4;margin:14mm 12mm 16mm");
    if (desk->files[TRACE].sum != NULL)
        printf(";@bottom-left{font:7pt monospace;content:\"trace.tsv %.32s..\"}", desk->files[TRACE].sum);
    put(";@bottom-right{font:7pt monospace;content:counter(page) \" of \" counter(pages)}}\n"
        "@media print{body{margin:0;padding:0;max-width:none}"
        ".columns{columns:2;column-gap:6mm;column-fill:auto}}\n");
}

void put_style(const struct desk *desk)
{
    size_t rule;

    put("<style>\n");
    for (rule = 0; rule < sizeof rules / sizeof rules[0]; rule++)
        put(rules[rule]);
    put_sheets(desk);
    put("</style>\n");
}
