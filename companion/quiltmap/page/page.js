// The page of a map. Each layer is a Leaflet grid layer that draws its tiles from arrays: blocks in the order of
// their locational codes, points, segments. A tile of the screen is a block of the map, so what it shows of the
// blocks is one run of them, and what lies under a pixel is found by a binary search.
(async function () {
    'use strict';

    const TILE = 256;
    const NEAR = 7; // how far from the pointer, on the screen, a point or a segment is still under it
    const OPACITY = 0.8;
    const MANY = 5000; // more points or segments than this are drawn small
    const LEAST_OUTLINE = 4; // the side on the screen of the least block whose outline is drawn

    const scene = JSON.parse(document.getElementById('scene').textContent);
    const side = 2 ** scene.level;

    // ---- arrays

    async function inflate(text) {
        const packed = Uint8Array.from(atob(text), letter => letter.charCodeAt(0));
        const stream = new Blob([packed]).stream().pipeThrough(new DecompressionStream('deflate'));
        return new Response(stream).arrayBuffer();
    }

    const KINDS = { u1: Uint8Array, u2: Uint16Array, u4: Uint32Array };

    async function unpack(pack) {
        return new KINDS[pack.kind](await inflate(pack.data));
    }

    function spread(value) {
        value = (value | (value << 8)) & 0x00ff00ff;
        value = (value | (value << 4)) & 0x0f0f0f0f;
        value = (value | (value << 2)) & 0x33333333;
        return (value | (value << 1)) & 0x55555555;
    }

    function gather(code) {
        code &= 0x55555555;
        code = (code | (code >> 1)) & 0x33333333;
        code = (code | (code >> 2)) & 0x0f0f0f0f;
        code = (code | (code >> 4)) & 0x00ff00ff;
        return (code | (code >> 8)) & 0x0000ffff;
    }

    const codeOf = (x, y) => spread(x) | (spread(y) << 1);

    // The blocks of a layer: where each begins, its side, and its colour.
    class Blocks {
        constructor(depths, colours) {
            const count = depths.length;
            this.colours = colours;
            this.codes = new Uint32Array(count);
            this.sides = new Uint16Array(count);
            this.x = new Uint16Array(count);
            this.y = new Uint16Array(count);
            let code = 0;
            for (let i = 0; i < count; i++) {
                this.codes[i] = code;
                this.sides[i] = 1 << (scene.level - depths[i]);
                this.x[i] = gather(code);
                this.y[i] = gather(code >> 1);
                code += this.sides[i] ** 2;
            }
        }

        // the block that this code lies in
        find(code) {
            let low = 0;
            let high = this.codes.length;
            while (high - low > 1) {
                const middle = (low + high) >> 1;
                if (this.codes[middle] <= code) low = middle;
                else high = middle;
            }
            return low;
        }

        // the first and the last-but-one of the blocks that meet the square of this side at x, y
        range(x, y, width) {
            const first = codeOf(x, y);
            return [this.find(first), this.find(first + width * width - 1) + 1];
        }
    }

    // ---- the map

    // Pixels are the coordinates: x to the right, y down, a pixel of the map for one of the screen at zoom 0.
    const crs = L.extend({}, L.CRS.Simple, { transformation: new L.Transformation(1, 0, 1, 0) });
    const bounds = L.latLngBounds([[0, 0], [side, side]]);
    const least = Math.min(0, 7 - scene.level);
    const map = L.map('map', {
        crs, minZoom: least, maxZoom: 6, attributionControl: false, zoomControl: true,
        maxBounds: bounds.pad(0.75), maxBoundsViscosity: 0.6, fadeAnimation: false,
    });
    const [west, north, east, south] = scene.extent;
    map.fitBounds([[north, west], [south, east]]);
    L.rectangle(bounds, { fill: false, color: '#888', weight: 1, interactive: false }).addTo(map);

    function canvasOf(ratio, name) {
        const canvas = L.DomUtil.create('canvas', `leaflet-tile ${name}`);
        canvas.width = canvas.height = TILE * ratio;
        return canvas;
    }

    const Tiles = L.GridLayer.extend({
        options: { tileSize: TILE, bounds, noWrap: true, minZoom: least, maxZoom: 6, keepBuffer: 1 },

        initialize(draw, name, options) {
            this.draw = draw;
            this.name = name;
            L.setOptions(this, options);
        },

        createTile(coords) {
            const scale = 2 ** coords.z;
            const ratio = this.name === 'blocks' ? 1 : window.devicePixelRatio || 1;
            const canvas = canvasOf(ratio, this.name);
            const view = { x: coords.x * TILE / scale, y: coords.y * TILE / scale, scale, width: TILE / scale };
            if (view.x < side && view.y < side && view.x + view.width > 0 && view.y + view.width > 0) {
                const pen = canvas.getContext('2d');
                pen.scale(ratio, ratio);
                this.draw(pen, view);
            }
            return canvas;
        },
    });

    // ---- drawing

    // Red, green, blue and opacity of a paint in one number, as a canvas has them in memory.
    function numberOf(paint) {
        const value = parseInt(paint.slice(1), 16);
        return (0xff000000 | ((value & 0xff) << 16) | (value & 0xff00) | (value >> 16)) >>> 0;
    }

    // A block as large as a pixel of the screen or larger fills its pixels. Of smaller ones a pixel has the mean.
    function drawRegion(blocks, paints) {
        return function (pen, view) {
            const image = pen.createImageData(TILE, TILE);
            const pixels = new Uint32Array(image.data.buffer);
            const [first, last] = blocks.range(Math.max(view.x, 0), Math.max(view.y, 0), Math.min(view.width, side));
            const unit = 1 / view.scale;
            for (let i = first; i < last;) {
                if (blocks.sides[i] >= unit) {
                    fillBlock(pixels, blocks, i, view, paints[blocks.colours[i]]);
                    i++;
                } else {
                    i = mixPixel(pixels, blocks, i, view, paints);
                }
            }
            pen.putImageData(image, 0, 0);
        };
    }

    function fillBlock(pixels, blocks, i, view, paint) {
        if (paint === 0) return;
        const clamp = value => Math.min(Math.max(Math.round(value * view.scale), 0), TILE);
        const left = clamp(blocks.x[i] - view.x);
        const right = clamp(blocks.x[i] + blocks.sides[i] - view.x);
        const bottom = clamp(blocks.y[i] + blocks.sides[i] - view.y);
        for (let row = clamp(blocks.y[i] - view.y); row < bottom; row++) {
            pixels.fill(paint, row * TILE + left, row * TILE + right);
        }
    }

    // Mixes the paints of the blocks from i on that lie in one pixel of the screen, and gives the first behind them.
    function mixPixel(pixels, blocks, i, view, paints) {
        const unit = 1 / view.scale;
        const left = Math.floor((blocks.x[i] - view.x) * view.scale);
        const top = Math.floor((blocks.y[i] - view.y) * view.scale);
        const end = blocks.codes[i] + unit * unit;
        let red = 0, green = 0, blue = 0, covered = 0;
        while (i < blocks.codes.length && blocks.codes[i] < end) {
            const paint = paints[blocks.colours[i]];
            const area = paint === 0 ? 0 : blocks.sides[i] ** 2;
            red += area * (paint & 255);
            green += area * ((paint >> 8) & 255);
            blue += area * ((paint >> 16) & 255);
            covered += area;
            i++;
        }
        if (covered > 0) {
            const opacity = Math.round(255 * covered * view.scale * view.scale);
            pixels[top * TILE + left] =
                ((opacity << 24) | ((blue / covered) << 16) | ((green / covered) << 8) | (red / covered)) >>> 0;
        }
        return i;
    }

    // The upper and the left edge of each block; the others are those of its neighbours, or of the square.
    function drawOutlines(blocks, paint) {
        return function (pen, view) {
            const [first, last] = blocks.range(Math.max(view.x, 0), Math.max(view.y, 0), Math.min(view.width, side));
            pen.strokeStyle = paint;
            pen.lineWidth = 0.75;
            pen.beginPath();
            for (let i = first; i < last; i++) {
                const size = blocks.sides[i] * view.scale;
                if (size < LEAST_OUTLINE) continue;
                const left = (blocks.x[i] - view.x) * view.scale + 0.5;
                const top = (blocks.y[i] - view.y) * view.scale + 0.5;
                pen.moveTo(left, top + size);
                pen.lineTo(left, top);
                pen.lineTo(left + size, top);
            }
            pen.stroke();
        };
    }

    function drawPoints(points, paint) {
        return function (pen, view) {
            const least = points.x.length > MANY ? Math.min(0.6 + view.scale, 1.4) : 3;
            const radius = Math.min(Math.max(view.scale * 0.4, least), 7);
            pen.fillStyle = paint;
            pen.strokeStyle = '#fff';
            for (let i = 0; i < points.x.length; i++) {
                const x = (points.x[i] + 0.5 - view.x) * view.scale;
                const y = (points.y[i] + 0.5 - view.y) * view.scale;
                if (x < -8 || y < -8 || x > TILE + 8 || y > TILE + 8) continue;
                if (radius < 2) {
                    pen.fillRect(x - radius, y - radius, 2 * radius, 2 * radius);
                    continue;
                }
                pen.beginPath();
                pen.arc(x, y, radius, 0, 2 * Math.PI);
                pen.fill();
                pen.stroke();
            }
        };
    }

    function drawSegments(segments, paint) {
        return function (pen, view) {
            const margin = 4 / view.scale;
            const least = [view.x - margin, view.y - margin];
            const most = [view.x + view.width + margin, view.y + view.width + margin];
            pen.strokeStyle = paint;
            pen.lineCap = 'round';
            pen.lineWidth = segments.id.length > MANY ? 1 : 2;
            pen.beginPath();
            for (let i = 0; i < segments.id.length; i++) {
                const x1 = segments.x1[i], y1 = segments.y1[i], x2 = segments.x2[i], y2 = segments.y2[i];
                if (Math.max(x1, x2) < least[0] || Math.max(y1, y2) < least[1]) continue;
                if (Math.min(x1, x2) > most[0] || Math.min(y1, y2) > most[1]) continue;
                pen.moveTo((x1 - view.x) * view.scale, (y1 - view.y) * view.scale);
                pen.lineTo((x2 - view.x) * view.scale, (y2 - view.y) * view.scale);
            }
            pen.stroke();
        };
    }

    // ---- what lies at a place

    function nearestPoint(points, x, y, reach) {
        let best = -1;
        let least = reach * reach;
        for (let i = 0; i < points.x.length; i++) {
            const away = (points.x[i] + 0.5 - x) ** 2 + (points.y[i] + 0.5 - y) ** 2;
            if (away <= least) { least = away; best = i; }
        }
        return best;
    }

    function distanceToSegment(segments, i, x, y) {
        const dx = segments.x2[i] - segments.x1[i];
        const dy = segments.y2[i] - segments.y1[i];
        const px = x - segments.x1[i];
        const py = y - segments.y1[i];
        const length = dx * dx + dy * dy;
        const part = length === 0 ? 0 : Math.min(Math.max((px * dx + py * dy) / length, 0), 1);
        return (px - part * dx) ** 2 + (py - part * dy) ** 2;
    }

    function nearestSegment(segments, x, y, reach) {
        let best = -1;
        let least = reach * reach;
        for (let i = 0; i < segments.id.length; i++) {
            const away = distanceToSegment(segments, i, x, y);
            if (away <= least) { least = away; best = i; }
        }
        return best;
    }

    // ---- layers, from the lowest to the uppermost

    async function blocksOf(layer) {
        const depths = await unpack(layer.depths);
        return new Blocks(depths, layer.colours ? await unpack(layer.colours) : new Uint8Array(depths.length));
    }

    async function columnsOf(layer) {
        const columns = {};
        for (const name of Object.keys(layer.columns)) columns[name] = await unpack(layer.columns[name]);
        return columns;
    }

    async function makeRegion(layer) {
        layer.blocks = await blocksOf(layer);
        const paints = new Uint32Array(65536);
        for (const entry of layer.legend) paints[entry.value] = numberOf(entry.paint);
        layer.under = (x, y) => {
            const colour = layer.blocks.colours[layer.blocks.find(codeOf(Math.floor(x), Math.floor(y)))];
            return colour === 0 ? null : { value: colour, says: `colour ${colour}` };
        };
        return drawRegion(layer.blocks, paints);
    }

    async function makePoints(layer) {
        layer.blocks = await blocksOf(layer);
        const points = await columnsOf(layer);
        layer.under = (x, y, reach) => {
            const i = nearestPoint(points, x, y, Math.max(reach, 0.71));
            return i < 0 ? null : { value: points.label[i], says: `point ${points.label[i]} at ${points.x[i]}, ${points.y[i]}` };
        };
        return drawPoints(points, layer.legend[0].paint);
    }

    async function makeLines(layer) {
        const segments = await columnsOf(layer);
        layer.under = (x, y, reach) => {
            const i = nearestSegment(segments, x, y, reach);
            if (i < 0) return null;
            const ends = `${segments.x1[i]}, ${segments.y1[i]} to ${segments.x2[i]}, ${segments.y2[i]}`;
            return { value: segments.id[i], says: `segment ${segments.id[i]} from ${ends}` };
        };
        return drawSegments(segments, layer.legend[0].paint);
    }

    const MAKERS = { region: makeRegion, points: makePoints, lines: makeLines };

    async function makeLayer(layer, place) {
        const draw = await MAKERS[layer.kind](layer);
        map.createPane(layer.name).style.zIndex = 210 + place;
        map.getPane(layer.name).style.pointerEvents = 'none';
        layer.tiles = new Tiles(draw, layer.kind === 'region' ? 'blocks' : layer.kind, {
            pane: layer.name, opacity: layer.kind === 'region' ? OPACITY : 1,
        });
        if (layer.blocks) {
            layer.outlines = new Tiles(drawOutlines(layer.blocks, layer.kind === 'region' ? '#333' : layer.legend[0].paint),
                'outlines', { pane: layer.name, zIndex: 2 });
        }
        if (layer.table) layer.rows = JSON.parse(new TextDecoder().decode(await inflate(layer.table)));
        if (layer.shown) layer.tiles.addTo(map);
        if (layer.outlines && scene.outlines && layer.shown) layer.outlines.addTo(map);
    }

    for (const [place, layer] of scene.layers.entries()) await makeLayer(layer, place);

    // ---- the panel: layers to switch on and off, and the legend

    function element(name, parent, properties) {
        return Object.assign(L.DomUtil.create(name, '', parent), properties);
    }

    function checkbox(parent, id, text, checked, act) {
        const label = element('label', parent);
        const box = element('input', label, { type: 'checkbox', id, checked });
        label.append(text);
        box.addEventListener('change', () => act(box.checked));
        return label;
    }

    const toggle = tiles => on => { if (on) tiles.addTo(map); else tiles.remove(); showUnder(); };

    function swatchOf(layer, entry, parent) {
        element('span', parent, { className: `swatch ${layer.kind}` }).style.background = entry.paint;
    }

    function legendOf(layer, parent) {
        const list = element('ul', parent, { className: 'legend' });
        for (const entry of layer.legend) {
            const item = element('li', list);
            swatchOf(layer, entry, item);
            element('span', item, { textContent: entry.name ? `${entry.value}: ${entry.name}` : entry.value });
            element('span', item, { className: 'pixels', textContent: `${entry.pixels.toLocaleString('en')} px` });
        }
    }

    const Panel = L.Control.extend({
        onAdd() {
            const panel = L.DomUtil.create('div', 'panel');
            L.DomEvent.disableClickPropagation(panel);
            L.DomEvent.disableScrollPropagation(panel);
            element('h1', panel, { textContent: scene.name });
            if (scene.layers.some(layer => layer.kind === 'region')) this.addOpacity(panel);
            for (const layer of [...scene.layers].reverse()) this.addLayer(panel, layer);
            return panel;
        },

        addOpacity(panel) {
            const label = element('label', panel, { className: 'opacity', textContent: 'regions' });
            const slider = element('input', label, { type: 'range', id: 'opacity', min: 0, max: 1, step: 0.05, value: OPACITY });
            slider.addEventListener('input', () => {
                for (const layer of scene.layers) if (layer.kind === 'region') layer.tiles.setOpacity(Number(slider.value));
            });
        },

        addLayer(panel, layer) {
            const entry = element('div', panel, { className: 'layer' });
            const line = element('div', entry);
            const label = checkbox(line, `show-${layer.name}`, layer.name, layer.shown, toggle(layer.tiles));
            label.className = 'shown';
            if (layer.outlines) {
                const on = scene.outlines && layer.shown;
                checkbox(line, `blocks-${layer.name}`, 'blocks', on, toggle(layer.outlines));
            }
            const count = element('div', entry, { className: 'count' });
            if (layer.kind === 'region') legendOf(layer, entry);
            else swatchOf(layer, layer.legend[0], count);
            count.append(layer.count);
        },
    });

    // ---- what lies under the pointer, and more of it at a click

    const Under = L.Control.extend({
        onAdd() {
            const box = L.DomUtil.create('div', 'under');
            box.id = 'under';
            return box;
        },
    });

    let pointer = null;

    function thingsAt(x, y) {
        if (x < 0 || y < 0 || x >= side || y >= side) return [];
        const reach = NEAR / map.getZoomScale(map.getZoom(), 0);
        return [...scene.layers].reverse()
            .filter(layer => map.hasLayer(layer.tiles))
            .map(layer => ({ layer, found: layer.under(x, y, reach) }))
            .filter(thing => thing.found !== null);
    }

    function groundOf(x, y) {
        if (!scene.ground) return '';
        const { east, north, system } = scene.ground;
        const digits = Math.min(Math.max(Math.ceil(-Math.log10(Math.abs(east[0]))) + 1, 0), 8);
        const place = [east[0] * x + east[1], north[0] * y + north[1]].map(part => part.toFixed(digits));
        return `${place.join(', ')}${system ? ` (${system})` : ''}`;
    }

    // The rows of a layer's table that speak of a thing. Rows lie in the order of the things.
    function rowsOf(layer, value) {
        if (!layer.rows) return [];
        const rows = layer.rows.rows;
        let low = 0;
        let high = rows.length;
        while (low < high) {
            const middle = (low + high) >> 1;
            if (rows[middle][1] < value) low = middle + 1;
            else high = middle;
        }
        const found = [];
        for (; low < rows.length && rows[low][0] <= value; low++) found.push(rows[low][2]);
        return found;
    }

    // The first words and numbers of a row, in short.
    const short = cells => cells.filter(cell => cell !== null).slice(0, 2).join(', ');

    function showUnder() {
        const box = document.getElementById('under');
        box.replaceChildren();
        if (!pointer) {
            box.textContent = 'Move the pointer over the map; click for more.';
            return;
        }
        const { lng: x, lat: y } = pointer;
        element('div', box, { className: 'place', textContent: `x ${Math.floor(x)}, y ${Math.floor(y)}   ${groundOf(x, y)}` });
        for (const { layer, found } of thingsAt(x, y)) {
            const line = element('div', box, { className: 'thing' });
            element('b', line, { textContent: layer.name });
            const rows = rowsOf(layer, found.value);
            line.append(` ${found.says}${rows.length ? ` · ${short(rows[0])}` : ''}${rows.length > 1 ? ' …' : ''}`);
        }
        if (x < 0 || y < 0 || x >= side || y >= side) return;
        for (const layer of scene.layers) {
            if (layer.outlines && map.hasLayer(layer.outlines)) element('div', box, { textContent: blockAt(layer, x, y) });
        }
    }

    function blockAt({ name, blocks }, x, y) {
        const i = blocks.find(codeOf(Math.floor(x), Math.floor(y)));
        return `${name}: block ${blocks.x[i]}, ${blocks.y[i]}, side ${blocks.sides[i]}`;
    }

    function detailsAt(x, y) {
        const box = L.DomUtil.create('div');
        element('div', box, { textContent: `x ${Math.floor(x)}, y ${Math.floor(y)}` });
        if (scene.ground) element('div', box, { textContent: groundOf(x, y) });
        for (const { layer, found } of thingsAt(x, y)) {
            const line = element('div', box);
            element('b', line, { textContent: layer.name });
            line.append(` ${found.says}`);
            for (const cells of rowsOf(layer, found.value)) tableOf(layer.rows.columns, cells, box);
        }
        return box;
    }

    function tableOf(columns, cells, parent) {
        const table = element('table', parent);
        cells.forEach((cell, i) => {
            if (cell === null) return;
            const entry = table.insertRow();
            entry.insertCell().textContent = columns[i];
            entry.insertCell().textContent = String(cell);
        });
    }

    new Under({ position: 'bottomleft' }).addTo(map);
    new Panel({ position: 'topright' }).addTo(map);
    showUnder();
    map.on('mousemove', event => { pointer = event.latlng; showUnder(); });
    map.on('mouseout', () => { pointer = null; showUnder(); });
    map.on('zoomend', showUnder);
    map.on('click', event => {
        const { lng: x, lat: y } = event.latlng;
        if (x < 0 || y < 0 || x >= side || y >= side) return;
        L.popup({ maxWidth: 360 }).setLatLng(event.latlng).setContent(detailsAt(x, y)).openOn(map);
    });

    window.quilt = { map, scene };
    document.body.dataset.ready = 'yes';
})().catch(fault => {
    const box = document.body.appendChild(document.createElement('p'));
    box.id = 'fault';
    box.textContent = `This browser can't show the map: ${fault.message}`;
});
