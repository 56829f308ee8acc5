"""An extension for Jupyter's servers: they refuse requests as JupyterHub does since 4.1.

A script's request that is let in by a cookie needs the value of the cookie `_xsrf` too, in a header or in its address; modules
need it as well. Browsers say in `Sec-Fetch-Mode` what makes a request. Without the value nobody is logged in, so that the
server's interface answers 403, and its files lead to the login. A page that is opened gets the cookie.
"""
SCRIPTS = ("cors", "same-origin")


def is_refused(handler):
    """Whether a request lacks the cookie's value."""
    if handler.request.headers.get("Sec-Fetch-Mode") not in SCRIPTS or getattr(handler, "_token_authenticated", False):
        return False
    value = handler.get_argument("_xsrf", None) or handler.request.headers.get("X-XSRFToken")
    return not value or value != handler.get_cookie("_xsrf")


def load_jupyter_server_extension(app):
    """Replaces the class by which the server finds out who makes a request."""
    settings = app.web_app.settings

    class Strict(settings["login_handler_class"]):
        """Lets in nobody who is refused."""

        @classmethod
        def get_user(cls, handler):
            user = super().get_user(handler)
            if handler.request.headers.get("Sec-Fetch-Mode") == "navigate":
                _ = handler.xsrf_token  # sets the cookie
            return None if is_refused(handler) else user

    settings.update(login_handler_class=Strict, xsrf_cookie_kwargs={"path": app.base_url})


_load_jupyter_server_extension = load_jupyter_server_extension


def _jupyter_server_extension_points():
    return [{"module": "hub_rule"}]
