"""Real data that Debian has, as sources for quilt-import. The packages are those of apt-packages.txt beside this file.

    counties   100 counties of North Carolina, polygons in degrees of NAD27 (r-cran-sf)
    towns      43,645 towns of the world, points (r-cran-maps)
    coast      the coasts of the world in low resolution, lines (gmt, gmt-gshhg-low)
    heights    heights and depths of the world, a grid of a third of a degree (ferret-datasets)
"""

from __future__ import annotations

import shutil
import subprocess
import sys
from pathlib import Path
from typing import Optional

import rasterio
from affine import Affine

_COUNTIES = Path("/usr/lib/R/site-library/sf/shape/nc.shp")
_HEIGHTS = Path("/usr/share/ferret-vis/data/etopo20.cdf")
_TOWNS = Path("/usr/lib/R/site-library/maps/data"), Path("/usr/lib/R/library/maps/data")

# How GDAL is told which columns of a table are places.
_PLACES = """<OGRVRTDataSource>
  <OGRVRTLayer name="towns">
    <SrcDataSource relativeToVRT="1">towns.csv</SrcDataSource>
    <GeometryType>wkbPoint</GeometryType>
    <LayerSRS>EPSG:4326</LayerSRS>
    <GeometryField encoding="PointFromColumns" x="long" y="lat"/>
    <Field name="name" type="String"/>
    <Field name="country" src="country.etc" type="String"/>
    <Field name="people" src="pop" type="Integer"/>
    <Field name="capital" type="Integer"/>
  </OGRVRTLayer>
</OGRVRTDataSource>
"""


def counties() -> Optional[Path]:
    """The counties, or None where they are not there."""
    return _COUNTIES if _COUNTIES.exists() else None


def heights(folder: Path) -> Optional[Path]:
    """Writes the heights to a folder, and gives the source, or None where they are not there.

    Their degrees of longitude go from 20 to 380; here they are 360 lower, as those of the other sources.
    """
    if not _HEIGHTS.exists():
        return None
    with rasterio.open(_HEIGHTS) as grid:
        transform = Affine.translation(-360, 0) * grid.transform
        profile = {**grid.profile, "driver": "GTiff", "crs": "EPSG:4326", "transform": transform}
        with rasterio.open(folder / "heights.tif", "w", **profile) as file:
            file.write(grid.read())
    return folder / "heights.tif"


def towns(folder: Path) -> Optional[Path]:
    """Writes the towns to a folder, and gives the source, or None where R or its maps are not there."""
    if shutil.which("Rscript") is None or not any(path.exists() for path in _TOWNS):
        return None
    script = "library(maps); data(world.cities); write.csv(world.cities, 'towns.csv', row.names = FALSE)"
    subprocess.run(["Rscript", "-e", script], cwd=folder, check=True, stdout=subprocess.DEVNULL, stderr=subprocess.DEVNULL)
    (folder / "towns.vrt").write_text(_PLACES)
    return folder / "towns.vrt"


def coast(folder: Path) -> Optional[Path]:
    """Writes the coasts to a folder, and gives the source, or None where gmt is not there."""
    if shutil.which("gmt") is None or not Path("/usr/share/gmt-gshhg/binned_GSHHS_l.nc").exists():
        return None
    words = ["gmt", "coast", "-Rd", "-Dl", "-W", "-A0/0/1", "-M"]
    with (folder / "coast.gmt").open("wb") as file:
        subprocess.run(words, cwd=folder, check=True, stdout=file, stderr=subprocess.DEVNULL)
    return folder / "coast.gmt"


def main() -> None:
    """Writes what is there to a folder, and tells the sources."""
    folder = Path(sys.argv[1])
    folder.mkdir(parents=True, exist_ok=True)
    found = {"counties": counties(), "towns": towns(folder), "coast": coast(folder), "heights": heights(folder)}
    for name, source in found.items():
        print(f"{name}: {source or 'not there'}")


if __name__ == "__main__":
    main()
