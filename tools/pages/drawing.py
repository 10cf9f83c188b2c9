"""The frame of a picture: a white ground, so that it is read on a light page and on a dark one."""

INK = "#1c2733"


def framed(width, height, title, lines, size=12):
    """A picture of these lines."""
    head = f'<svg xmlns="http://www.w3.org/2000/svg" viewBox="0 0 {width} {height}" width="{width}" height="{height}" font-family="sans-serif" font-size="{size}" fill="{INK}">'
    return "\n".join([head, f"  <title>{title}</title>", f'  <rect width="{width}" height="{height}" rx="8" fill="#ffffff"/>', *lines, "</svg>", ""])
