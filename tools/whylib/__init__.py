"""Why a file is refused, and how it is mended."""
