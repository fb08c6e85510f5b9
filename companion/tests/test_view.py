"""The page and the picture of a map: what they hold, and what a reader of them sees."""

import base64
import io
import json
import re
import resource
import shutil
import subprocess
import sys
import time
import zlib
from collections.abc import Iterator
from dataclasses import replace
from pathlib import Path
from typing import Any

import numpy as np
import pytest
from PIL import Image

import quiltmap
from quiltmap.blocks import Blocks
from quiltmap.page import page_of
from quiltmap.scene import Ground, LineLayer, SceneError, Paints, PointLayer, RegionLayer, Scene, Table
from quiltmap.scene import lowest_first, read_scene, region_layer, table_of, told_paints

LEVEL = 6
SIDE = 1 << LEVEL


def leaves_of(grid: np.ndarray, x: int, y: int, side: int) -> list[tuple[int, int, int, int]]:
    part = grid[y : y + side, x : x + side]
    if (part == part[0, 0]).all():
        return [(x, y, side, int(part[0, 0]))]
    half = side // 2
    return [leaf for v in (y, y + half) for u in (x, x + half) for leaf in leaves_of(grid, u, v, half)]


def drawn_grid(level: int, seed: int, colours: int) -> np.ndarray:
    rng = np.random.default_rng(seed)
    side = 1 << level
    grid = np.zeros((side, side), dtype=np.int64)
    for size in (side // 2, side // 3, side // 4, 5, 3, 1, 1, 1):
        x, y = rng.integers(0, side, 2)
        grid[y : y + size, x : x + size] = rng.integers(0, colours)
    return grid


def region_of(name: str, grid: np.ndarray, paints: Paints) -> RegionLayer:
    level = len(grid).bit_length() - 1
    return region_layer(name, Blocks.of_leaves(level, np.array(leaves_of(grid, 0, 0, len(grid)))), paints)


def points_of(name: str, rows: list[tuple[int, int, int]]) -> PointLayer:
    points = np.array(rows)
    return PointLayer(name, points, Blocks.of_points(LEVEL, points, 1), "#c0392b")


@pytest.fixture(scope="module")
def grid() -> np.ndarray:
    """Drawn patches, which reach to all edges."""
    drawn = drawn_grid(LEVEL, 5, 400)
    drawn[0, 0], drawn[-1, -1] = 7, 390
    return drawn


@pytest.fixture(scope="module")
def scene(grid: np.ndarray) -> Scene:
    """Zones of some colours, two wells and two roads, on the ground, with a table of the wells."""
    wells = points_of("well", [(10, 50, 4000000000), (60, 3, 8)])
    roads = LineLayer("road", np.array([[7, 0, 40, 63, 40], [9, 20, 0, 20, 63]]), "#222222")
    ways = Table(("way",), ((3, 6, ("Low Street",)), (7, 8, ("High Street",)), (9, 9, ("Mill Lane",)), (9, 9, ("Mill Road",))))
    depths = Table(("name", "depth"), ((8, 8, ("Deep </script> well", 12.5)), (4000000000, 4000000000, ("Old well", None))))
    zones = region_of("zone", grid, Paints())
    ground = Ground((10.0, 1000.0), (-10.0, 5000.0), "NAD83 / North Carolina")
    return Scene("town & <country>", LEVEL, (zones, roads, wells), ground, {"well": depths, "road": ways})


# What the page holds.


def told_by(page: str) -> dict[str, Any]:
    found = re.search(r'<script type="application/json" id="scene">(.*?)</script>', page, flags=re.DOTALL)
    assert found
    return json.loads(found[1])


def inflated(data: str) -> bytes:
    return zlib.decompress(base64.b64decode(data))


def unpacked(pack: dict[str, str]) -> np.ndarray:
    return np.frombuffer(inflated(pack["data"]), dtype=f"<{pack['kind']}")


def test_the_page_holds_each_layer_whole(scene: Scene, grid: np.ndarray) -> None:
    zone, road, well = told_by(page_of(scene))["layers"]
    sides = SIDE >> unpacked(zone["depths"]).astype(int)
    codes = np.cumsum(sides**2) - sides**2
    assert codes.tolist() == scene.layers[0].blocks.codes.tolist()
    assert unpacked(zone["colours"]).tolist() == scene.layers[0].blocks.colours.tolist()
    colours, counts = np.unique(grid[grid != 0], return_counts=True)
    assert [(entry["value"], entry["pixels"]) for entry in zone["legend"]] == list(zip(colours.tolist(), counts.tolist()))
    assert [unpacked(road["columns"][name]).tolist() for name in ("id", "x1", "y1", "x2", "y2")] == scene.layers[1].segments.T.tolist()
    assert [unpacked(well["columns"][name]).tolist() for name in ("x", "y", "label")] == scene.layers[2].points.T.tolist()
    assert json.loads(inflated(well["table"]))["rows"][0] == [8, 8, ["Deep </script> well", 12.5]]


def test_names_in_a_legend_do_not_end_the_script(grid: np.ndarray) -> None:
    zone = region_of("zone", np.ones((SIDE, SIDE), int), Paints())
    name = "<!--<script></script>&amp;"
    page = page_of(Scene(name, LEVEL, (zone,), None, {"zone": Table(("use",), ((1, 1, (name,)),))}))
    told = told_by(page)
    assert told["name"] == name and told["layers"][0]["legend"][0]["name"] == name
    assert "<!--" not in page and page.count("</script>") == 3


def test_the_page_asks_for_nothing_outside_itself(scene: Scene) -> None:
    page = page_of(scene)
    style = re.search(r"<style>(.*?)</style>", page, flags=re.DOTALL)
    assert style and not re.search(r"url\(|@import", style[1])
    assert not re.search(r"<(link|img|iframe|script src)\b|sourceMappingURL|XMLHttpRequest|\bfetch\(", page)


def test_of_many_layers_the_uppermost_are_on_at_first() -> None:
    layers = tuple(LineLayer(f"road{i}", np.array([[1, 0, 0, 5, 5]]), "#222222") for i in range(30))
    told = told_by(page_of(Scene("roads", LEVEL, layers)))["layers"]
    assert [layer["name"] for layer in told if layer["shown"]] == [f"road{i}" for i in range(10, 30)]


def test_paints_are_told_by_layer_or_for_all() -> None:
    told = told_paints("zone:3=#102030, 7=tan\n\nriver:1=blue")
    assert told == {("zone", 3): "#102030", ("", 7): "#d2b48c", ("river", 1): "#0000ff"}
    paints = Paints(told)
    assert paints.of_region("zone", [3, 7]) == ["#102030", "#d2b48c"]
    assert paints.of_region("other", [7])[0] == "#d2b48c"
    for wrong in ("zone=#fff", "zone:x=#fff", "3=nopaint", "3", "Zone:3=red", "3=#12"):
        with pytest.raises(SceneError):
            told_paints(wrong)


def test_many_colours_have_as_many_paints() -> None:
    assert len(set(Paints().of_region("county", range(1, 101)))) == 100


def test_the_extent_is_that_of_what_is_there() -> None:
    zone = region_of("zone", np.pad(np.ones((3, 5), int), ((10, SIDE - 13), (20, SIDE - 25))), Paints())
    road = LineLayer("road", np.array([[1, 7, 12, 30, 11]]), "#222222")
    nothing = region_of("nothing", np.zeros((SIDE, SIDE), int), Paints())
    assert Scene("m", LEVEL, (zone,)).extent() == (20, 10, 25, 13)
    assert Scene("m", LEVEL, (zone, nothing, road)).extent() == (7, 10, 30, 13)
    assert Scene("m", LEVEL, (zone, points_of("well", [(63, 0, 1)]))).extent() == (20, 0, 64, 13)
    assert Scene("m", LEVEL, (nothing,)).extent() == Scene("m", LEVEL, ()).extent() == (0, 0, SIDE, SIDE)


def test_a_table_has_its_rows_in_the_order_of_its_things() -> None:
    frame = pandas_frame(label=[9, 2, 5], name=["c", None, "b"], depth=[1.5, np.inf, np.nan], count=[3, 4, 5])
    table = table_of(frame, "points")
    assert table is not None
    assert table.columns == ("name", "depth", "count")
    assert table.rows == ((2, 2, (None, None, 4)), (5, 5, ("b", None, 5)), (9, 9, ("c", 1.5, 3)))
    assert table.names() == {5: "b", 9: "c"}
    assert table_of(frame, "lines") is None
    ways = table_of(pandas_frame(first=[5, 1], last=[9, 4], way=["b", "a"]), "lines")
    assert ways is not None and ways.rows == ((1, 4, ("a",)), (5, 9, ("b",)))


def test_large_regions_lie_lowest_and_points_uppermost() -> None:
    paints = Paints()
    layers = [
        points_of("well", [(1, 1, 1)]),
        region_of("small", np.pad(np.ones((2, 2), int), (0, 62)), paints),
        LineLayer("road", np.array([[1, 0, 0, 5, 5]]), "#222222"),
        region_of("large", np.ones((SIDE, SIDE), int), paints),
    ]
    assert [layer.name for layer in sorted(layers, key=lowest_first)] == ["large", "small", "road", "well"]


# What the picture shows.


def picture_of(scene: Scene, tmp_path: Path, ending: str, size: int = 640, **options: Any) -> Path:
    pytest.importorskip("matplotlib", reason="python3-matplotlib is not there")
    from quiltmap.picture import write_picture

    path = tmp_path / f"map.{ending}"
    write_picture(scene, path, size, **options)
    return path


def blended(paint: str, opacity: float, ground: tuple[int, int, int] = (244, 243, 239)) -> np.ndarray:
    over = np.array([int(paint[i : i + 2], 16) for i in (1, 3, 5)])
    return over * opacity + np.array(ground) * (1 - opacity)


def test_each_pixel_of_a_region_has_its_paint_in_the_picture(scene: Scene, grid: np.ndarray, tmp_path: Path) -> None:
    alone = Scene("zones", LEVEL, scene.layers[:1])
    image = np.asarray(Image.open(picture_of(alone, tmp_path, "png")).convert("RGB")).astype(int)
    # the map is 640 pixels a side behind a margin of 45, 10 a pixel of the map
    seen = image[45 + 5 : 45 + 640 : 10, 45 + 5 : 45 + 640 : 10]
    paints = {swatch.value: blended(swatch.paint, 0.8) for swatch in scene.layers[0].swatches} | {0: np.array((244, 243, 239))}
    wanted = np.array([[paints[colour] for colour in row] for row in grid.tolist()])
    assert np.abs(seen - wanted).max() <= 2


def test_segments_and_points_are_drawn_over_regions(scene: Scene, tmp_path: Path) -> None:
    image = np.asarray(Image.open(picture_of(scene, tmp_path, "png")).convert("RGB")).astype(int)
    at = lambda x, y: image[45 + round(y * 10), 45 + round(x * 10)]
    assert at(30, 40).max() < 60
    assert np.abs(at(10.5, 50.5) - [0xC0, 0x39, 0x2B]).max() < 12


def test_a_picture_shows_where_something_is(tmp_path: Path) -> None:
    zone = region_of("zone", np.pad(np.ones((8, 16), int), ((50, 6), (5, 43))), Paints())
    image = np.asarray(Image.open(picture_of(Scene("zones", LEVEL, (zone,)), tmp_path, "png", size=160)).convert("RGB")).astype(int)
    assert image.shape[0] == 80 + 90
    shown = image[45 + 2 : 45 + 78, 45 + 2 : 45 + 158]
    assert np.abs(shown - blended(zone.swatches[0].paint, 0.8)).max() <= 2
    road = LineLayer("road", np.array([[1, 0, 60, 63, 60]]), "#222222")
    assert Image.open(picture_of(Scene("roads", LEVEL, (road,)), tmp_path, "png", size=400)).size[1] == 100 + 90


def marks_of(scene: Scene) -> dict[str, dict[float, str]]:
    pytest.importorskip("matplotlib", reason="python3-matplotlib is not there")
    from quiltmap.picture import figure_of

    (axes,) = figure_of(scene, 640, False).axes
    texts = lambda axis: [mark.get_text() for mark in axis.get_ticklabels()]
    return {name: dict(zip(axis.get_ticklocs(), texts(axis))) for name, axis in (("x", axes.xaxis), ("y", axes.yaxis))}


@pytest.mark.parametrize(("pixel", "corner"), [(10.0, 600_000.0), (0.034, -84.3), (1 / 3, 1e6), (2.5e-5, 36.58), (1e4, -2e7)])
def test_marks_of_the_ground_are_where_they_say(scene: Scene, pixel: float, corner: float) -> None:
    placed = replace(scene, ground=Ground((pixel, corner), (-pixel, corner), ""))
    found = marks_of(placed)
    for name, factor in (("x", pixel), ("y", -pixel)):
        assert len(found[name]) >= 2
        for place, text in found[name].items():
            assert float(text.replace(",", "").replace("−", "-")) == pytest.approx(factor * place + corner, abs=pixel / 1000)


@pytest.mark.parametrize("ending", ["png", "svg"])
def test_the_same_map_gives_the_same_picture(scene: Scene, tmp_path: Path, ending: str) -> None:
    first = picture_of(scene, tmp_path, ending, outlines=True).read_bytes()
    assert picture_of(scene, tmp_path, ending, outlines=True).read_bytes() == first
    assert first.startswith(b"\x89PNG" if ending == "png" else b"<?xml")


# What a browser shows.


@pytest.fixture(scope="module")
def browser() -> Iterator[Any]:
    webdriver = pytest.importorskip("selenium.webdriver", reason="python3-selenium is not there")
    from selenium.webdriver.chrome.options import Options
    from selenium.webdriver.chrome.service import Service

    program, driver = shutil.which("chromium"), shutil.which("chromedriver")
    if not program or not driver:
        pytest.skip("chromium and chromium-driver are not there")
    options = Options()
    options.binary_location = program
    for word in ("--headless=new", "--no-sandbox", "--window-size=1200,900", "--disable-gpu", "--host-resolver-rules=MAP * ~NOTFOUND"):
        options.add_argument(word)
    options.set_capability("goog:loggingPrefs", {"browser": "ALL"})
    started = webdriver.Chrome(service=Service(driver), options=options)
    started.set_page_load_timeout(60)
    yield started
    started.quit()


def wait_for(browser: Any, condition: str) -> None:
    """Waits until a condition of the page's script holds."""
    for _ in range(300):
        if browser.execute_script(f"return {condition}"):
            return
        time.sleep(0.05)
    raise AssertionError(f"not within 15 seconds: {condition}")


def open_page(browser: Any, scene: Scene, tmp_path: Path, **options: Any) -> None:
    path = tmp_path / "map.html"
    path.write_text(page_of(scene, **options), encoding="utf-8")
    browser.get(path.as_uri())
    wait_for(browser, "document.body.dataset.ready === 'yes'")


def look_at(browser: Any, x: float, y: float, zoom: int) -> None:
    """Puts a place of the map into the middle of the window, with all tiles drawn."""
    browser.execute_script(f"quilt.map.setView([{y}, {x}], {zoom}, {{animate: false}})")
    wait_for(browser, "[...document.querySelectorAll('canvas.leaflet-tile')].every(tile => tile.classList.contains('leaflet-tile-loaded'))")
    browser.execute_async_script("requestAnimationFrame(() => requestAnimationFrame(arguments[0]))")


def screen_of(browser: Any) -> np.ndarray:
    return np.asarray(Image.open(io.BytesIO(browser.get_screenshot_as_png())).convert("RGB")).astype(int)


def place_on_screen(browser: Any, x: float, y: float) -> tuple[int, int]:
    found = browser.execute_script(f"const p = quilt.map.latLngToContainerPoint([{y}, {x}]); return [p.x, p.y]")
    return round(found[0]), round(found[1])


def point_at(browser: Any, x: float, y: float) -> str:
    """Moves the pointer there, and gives what the page tells of it."""
    from selenium.webdriver.common.actions.action_builder import ActionBuilder

    place = place_on_screen(browser, x, y)
    builder = ActionBuilder(browser, duration=0)
    builder.pointer_action.move_to_location(*place)
    builder.perform()
    browser.execute_async_script("requestAnimationFrame(() => requestAnimationFrame(arguments[0]))")
    return browser.find_element("id", "under").text


def test_what_is_there_fills_the_window_at_first(browser: Any, tmp_path: Path) -> None:
    zone = region_of("zone", np.pad(np.ones((4, 4), int), ((50, 10), (5, 55))), Paints())
    open_page(browser, Scene("zones", LEVEL, (zone,)), tmp_path)
    (left, top), (right, bottom) = place_on_screen(browser, 5, 50), place_on_screen(browser, 9, 54)
    height = browser.execute_script("return innerHeight")
    assert 0 <= top < bottom <= height and bottom - top > height / 4 and 0 <= left < right


def test_the_pointer_tells_what_lies_under_it(browser: Any, scene: Scene, grid: np.ndarray, tmp_path: Path) -> None:
    open_page(browser, scene, tmp_path)
    look_at(browser, 32, 32, 3)
    for x, y in [(3, 60), (61, 5), *np.random.default_rng(4).integers(0, SIDE, (12, 2)).tolist()]:
        told = point_at(browser, x + 0.5, y + 0.5)
        assert f"x {x}, y {y}" in told
        assert re.findall(r"colour (\d+)", told) == ([str(grid[y, x])] if grid[y, x] else [])
        assert f"{1000 + 10 * x + 5}, {5000 - 10 * y - 5} (NAD83 / North Carolina)" in told
    assert "segment 7 from 0, 40 to 63, 40 · High Street" in point_at(browser, 33, 40.25)
    assert "segment 9 from 20, 0 to 20, 63 · Mill Lane …" in point_at(browser, 20, 10)
    assert "point 4000000000 at 10, 50 · Old well" in point_at(browser, 10.5, 50.5)
    assert point_at(browser, 10.5, 50.5).count("point") == 1


def test_each_pixel_of_the_screen_has_the_paint_of_its_pixel(browser: Any, scene: Scene, grid: np.ndarray, tmp_path: Path) -> None:
    open_page(browser, Scene("zones", LEVEL, scene.layers[:1]), tmp_path)
    look_at(browser, 32, 32, 3)
    screen = screen_of(browser)
    left, top = place_on_screen(browser, 0.5, 0.5)
    seen = screen[top : top + 8 * SIDE : 8, left : left + 8 * SIDE : 8]
    paints = {swatch.value: blended(swatch.paint, 0.8) for swatch in scene.layers[0].swatches} | {0: np.array((244, 243, 239))}
    wanted = np.array([[paints[colour] for colour in row] for row in grid.tolist()])
    # the frame of the map, one pixel wide, and the panel's corner lie over some
    assert (np.abs(seen - wanted).max(axis=2) > 3).mean() < 0.01


def test_a_coarse_screen_has_the_mean_of_its_pixels(browser: Any, tmp_path: Path) -> None:
    grid = drawn_grid(9, 11, 5)
    grid[::2, 100:300:2] = 3
    zones = region_of("zone", grid, Paints())
    open_page(browser, Scene("zones", 9, (zones,)), tmp_path)
    look_at(browser, 256, 256, -2)
    left, top = place_on_screen(browser, 0, 0)
    seen = screen_of(browser)[top : top + 128, left : left + 128]
    table = np.zeros((5, 4))
    for swatch in zones.swatches:
        table[swatch.value] = [*blended(swatch.paint, 1), 1]
    part = np.concatenate((table[:, :3] * table[:, 3:], table[:, 3:]), axis=1)[grid]
    mean = part.reshape(128, 4, 128, 4, 4).mean(axis=(1, 3))
    opacity = mean[:, :, 3:] * 0.8
    wanted = mean[:, :, :3] * 0.8 + np.array((244, 243, 239)) * (1 - opacity)
    assert (np.abs(seen - wanted).max(axis=2) > 4).mean() < 0.04


def test_a_click_on_a_layer_takes_it_off_and_puts_it_on(browser: Any, scene: Scene, grid: np.ndarray, tmp_path: Path) -> None:
    open_page(browser, scene, tmp_path)
    look_at(browser, 32, 32, 3)
    y, x = (int(part[-1]) for part in np.nonzero(grid))
    left, top = place_on_screen(browser, x + 0.5, y + 0.5)
    painted = screen_of(browser)[top, left]
    assert np.abs(painted - (244, 243, 239)).max() > 20
    browser.find_element("id", "show-zone").click()
    look_at(browser, 32, 32, 3)
    assert np.abs(screen_of(browser)[top, left] - (244, 243, 239)).max() <= 2
    assert "colour" not in point_at(browser, x + 0.5, y + 0.5)
    browser.find_element("id", "show-zone").click()
    look_at(browser, 32, 32, 3)
    assert np.abs(screen_of(browser)[top, left] - painted).max() <= 2


def test_blocks_are_drawn_on_demand(browser: Any, scene: Scene, tmp_path: Path) -> None:
    open_page(browser, Scene("zones", LEVEL, scene.layers[:1]), tmp_path)
    look_at(browser, 32, 32, 3)
    before = screen_of(browser)
    browser.find_element("id", "blocks-zone").click()
    look_at(browser, 32, 32, 3)
    changed = np.abs(screen_of(browser) - before).max(axis=2) > 8
    blocks = scene.layers[0].blocks
    left, top = place_on_screen(browser, 0, 0)
    large = [(int(x), int(y), int(side)) for x, y, side in zip(blocks.x, blocks.y, blocks.sides) if side >= 8]
    edges = [(top + 8 * y, left + 8 * x + 4 * side) for x, y, side in large if y > 0]
    assert len(edges) > 20 and all(changed[row - 1 : row + 2, column].any() for row, column in edges)
    middles = [(top + 8 * y + 4 * side, left + 8 * x + 4 * side) for x, y, side in large]
    assert not any(changed[row, column] for row, column in middles)
    x, y, side = large[-1]
    assert f"zone: block {x}, {y}, side {side}" in point_at(browser, x + side - 0.5, y + 0.5)


def test_a_click_tells_all_that_a_table_has(browser: Any, scene: Scene, tmp_path: Path) -> None:
    open_page(browser, scene, tmp_path)
    look_at(browser, 60.5, 3.5, 3)
    point_at(browser, 60.5, 3.5)
    from selenium.webdriver.common.action_chains import ActionChains

    ActionChains(browser).click().perform()
    wait_for(browser, "document.querySelector('.leaflet-popup-content') !== null")
    told = browser.find_element("css selector", ".leaflet-popup-content").text
    assert "Deep </script> well" in told and "depth 12.5" in told


def test_the_page_says_nothing_is_wrong_and_loads_nothing(browser: Any, scene: Scene, tmp_path: Path) -> None:
    browser.get_log("browser")
    open_page(browser, scene, tmp_path, outlines=True)
    look_at(browser, 32, 32, 5)
    look_at(browser, 32, 32, 0)
    assert browser.get_log("browser") == []
    loaded = browser.execute_script("return performance.getEntriesByType('resource').map(entry => entry.name)")
    assert [name for name in loaded if not name.startswith("data:")] == []


def test_a_browser_that_is_too_old_is_told(browser: Any, scene: Scene, tmp_path: Path) -> None:
    told = browser.execute_cdp_cmd("Page.addScriptToEvaluateOnNewDocument", {"source": "delete window.DecompressionStream"})
    try:
        path = tmp_path / "map.html"
        path.write_text(page_of(scene), encoding="utf-8")
        browser.get(path.as_uri())
        wait_for(browser, "document.getElementById('fault') !== null")
        assert "can't show the map" in browser.find_element("id", "fault").text
    finally:
        browser.execute_cdp_cmd("Page.removeScriptToEvaluateOnNewDocument", {"identifier": told["identifier"]})


# The command, on the program.

ROOT = Path(__file__).resolve().parents[2]
FIRST_MAP = (
    "--size", "512", "--layers", "flood,river,centre,wet,park,dry,road,well",
    "--region-colours", "flood:1=#b9dcf5,river:1=#2f7fc1,centre:7=#f2b96b,wet:7=#c2604f,park:3=#cfe3a8,dry:3=#6aa84f",
)  # fmt: skip


def run_view(*words: object) -> subprocess.CompletedProcess[str]:
    return subprocess.run([sys.executable, str(ROOT / "companion" / "bin" / "quilt-view"), *map(str, words)], capture_output=True, text=True)


@pytest.fixture
def town(program: str, tmp_path: Path) -> Path:
    """A map of a region, of points four to a block, and of segments, published."""
    path = tmp_path / "town"
    quiltmap.new(path, 64, 5)
    with quiltmap.open(path) as source:
        source.upgrade()
        source.region("zone", 0)
        source.rect("zone", 3, 3, 10, 10, 700)
        source.points("well", 4)
        source.scatter("well", [[x * x % 31, x * 7 % 32, x] for x in range(30)])
        source.lines("road", 2)
        source.line("road", 1, 0, 0, 31, 31)
        source.publish()
    return path


def test_a_scene_has_what_the_program_tells(town: Path) -> None:
    with quiltmap.open(town) as source:
        scene = read_scene(source, "town")
        zone, road, well = scene.layers
        assert [layer.name for layer in scene.layers] == ["zone", "road", "well"]
        assert [(swatch.value, swatch.pixels) for swatch in zone.swatches] == [(700, source.area("zone", 700))]
        for layer in (zone, well):
            sides, counts = np.unique(layer.blocks.sides, return_counts=True)
            assert dict(zip(sides.tolist(), counts.tolist())) == source.blocks(layer.name)
        assert road.segments.tolist() == [[1, 0, 0, 31, 31]]


def test_the_page_lies_beside_the_map_where_no_other_place_is_told(town: Path) -> None:
    found = run_view(town)
    assert found.returncode == 0 and f"{town}.html: 3 layers, " in found.stdout
    assert [layer["name"] for layer in told_by(Path(f"{town}.html").read_text())["layers"]] == ["zone", "road", "well"]


def test_chosen_layers_lie_in_the_order_of_their_names_on_the_line(town: Path, tmp_path: Path) -> None:
    out = tmp_path / "out.html"
    assert run_view(town, "-o", out, "--layers", "well,zone", "--region-colours", "zone:700=tan").returncode == 0
    layers = told_by(out.read_text())["layers"]
    assert [layer["name"] for layer in layers] == ["well", "zone"]
    assert layers[1]["legend"][0]["paint"] == "#d2b48c"


@pytest.mark.parametrize(("words", "status", "said"), [
    (("--layers", "zone,lake"), 1, "has no layer lake; it has road, well, zone"),
    (("--region-colours", "zone=red"), 1, "'zone=red' is no [LAYER:]COLOUR=PAINT"),
    (("-o", "out.pdf"), 2, "ends in none of .html, .htm, .png, .svg"),
    (("-o", "/nosuch/out.html"), 1, "/nosuch/out.html: No such file or directory"),
])  # fmt: skip
def test_what_is_wrong_is_said_and_nothing_is_written(town: Path, words: tuple[str, ...], status: int, said: str) -> None:
    found = run_view(town, *words)
    assert found.returncode == status and said in found.stderr and "Traceback" not in found.stderr
    assert len(found.stderr.splitlines()) == 1 or status == 2
    assert sorted(path.name for path in town.parent.iterdir()) == ["town"]


def test_a_map_that_is_not_there_is_said(program: str, tmp_path: Path) -> None:
    found = run_view(tmp_path / "nosuch")
    assert (found.returncode, found.stderr) == (6, f"quilt-view: {tmp_path}/nosuch: no such file: make one with new\n")


def test_the_files_beside_a_map_tell_its_ground_and_its_attributes(town: Path) -> None:
    beside = pytest.importorskip("quiltmap.beside", reason="python3-geopandas is not there").Beside(town)
    from quiltmap.place import Place

    beside.prepare(1, Place.over((1000.0, 2000.0, 1320.0, 2320.0), 32, None), "well", pandas_frame(label=[0, 29], name=["Old", "New"]))
    beside.accept()
    assert run_view(town).returncode == 0
    told = told_by(Path(f"{town}.html").read_text())
    assert told["ground"] == {"east": [10, 1000], "north": [-10, 2320], "system": ""}
    assert json.loads(inflated(told["layers"][2]["table"])) == {"columns": ["name"], "rows": [[0, 0, ["Old"]], [29, 29, ["New"]]]}


@pytest.mark.parametrize(("ending", "said"), [("gpkg", "town.gpkg: file is not a database"), ("wld", "town.wld is no world file")])
def test_a_file_beside_a_map_that_cannot_be_read_is_named(town: Path, ending: str, said: str) -> None:
    town.with_name(f"town.{ending}").write_text("nonsense\n" * 20)
    found = run_view(town)
    assert found.returncode == 1 and said in found.stderr and len(found.stderr.splitlines()) == 1


def pandas_frame(**columns: list[Any]) -> Any:
    return pytest.importorskip("pandas", reason="python3-pandas is not there").DataFrame(columns)


def test_a_map_that_is_open_elsewhere_is_said(town: Path) -> None:
    with quiltmap.open(town):
        found = run_view(town)
    assert found.returncode == 1 and len(found.stderr.splitlines()) == 1 and "open in another run" in found.stderr


def seconds_of_children() -> float:
    """The processor's time that ended children took."""
    used = resource.getrusage(resource.RUSAGE_CHILDREN)
    return used.ru_utime + used.ru_stime


def is_slow(program: str, tmp_path: Path) -> bool:
    """Whether the program is a build for trials, which takes a hundred times as long."""
    quiltmap.new(tmp_path / "probe", 64, 9)
    before = seconds_of_children()
    with quiltmap.open(tmp_path / "probe") as source:
        source.region("a", 0)
        source.raster("a", np.arange(512 * 512).reshape(512, 512) // 8192)
    return seconds_of_children() - before > 0.5


@pytest.mark.parametrize(("ending", "most"), [("html", 4_000_000), ("png", 4_000_000)])
def test_a_world_is_shown_within_five_seconds(program: str, tmp_path: Path, ending: str, most: int) -> None:
    """100 counties with winding borders and 43,645 towns on 4,096 by 4,096 pixels, by the processor's time."""
    if is_slow(program, tmp_path):
        pytest.skip(f"{program} is a build for trials")
    y, x = np.mgrid[0:4096, 0:4096].astype(np.float32)
    counties = ((x + 40 * np.sin(y / 97)).clip(0, 4095) // 410 + 10 * ((y + 40 * np.sin(x / 83)).clip(0, 4095) // 410) + 1).astype(int)
    towns = np.random.default_rng(1).choice(4096 * 4096, 43_645, replace=False)
    world = tmp_path / "world"
    quiltmap.new(world, 30_000, 12)
    with quiltmap.open(world) as source:
        source.region("county", 0)
        source.raster("county", counties)
        source.points("town")
        source.scatter("town", np.stack((towns % 4096, towns // 4096, np.arange(len(towns))), axis=1))
        source.publish()
    before = seconds_of_children()
    found = run_view(world, "-o", tmp_path / f"world.{ending}")
    assert found.returncode == 0, found.stderr
    assert seconds_of_children() - before < 5
    assert (tmp_path / f"world.{ending}").stat().st_size < most


def test_the_readmes_picture_is_that_of_its_first_example(program: str, tmp_path: Path) -> None:
    pytest.importorskip("matplotlib", reason="python3-matplotlib is not there")
    readme = (ROOT / "README.md").read_text(encoding="utf-8")
    example = re.search(r"new town (\d+) (\d+)\n\./quilt run town <<'END'\n(.*?)\nEND\n", readme, flags=re.DOTALL)
    assert example
    quiltmap.new(tmp_path / "town", int(example[1]), int(example[2]))
    subprocess.run([program, "run", tmp_path / "town"], input=example[3].encode(), stdout=subprocess.DEVNULL, check=True)
    found = run_view(tmp_path / "town", "-o", tmp_path / "town.png", *FIRST_MAP)
    assert found.returncode == 0, found.stderr
    kept, made = (np.asarray(Image.open(path).convert("RGB")).astype(int) for path in (ROOT / "docs" / "first-map.png", tmp_path / "town.png"))
    # letters may differ a little between versions of matplotlib, so the square alone is compared pixel by pixel
    assert kept.shape == made.shape
    assert (kept[46:555, 46:556] == made[46:555, 46:556]).all()
