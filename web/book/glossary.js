// The glossary, which is a page of the site: it is kept for use without a network too.
import {keepSite} from "./site.js";

keepSite();
