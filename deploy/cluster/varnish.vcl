vcl 4.1;
# Varnish on each cache: /etc/varnish/default.vcl, started with `-a :8102`. It keeps what readers without a pass are answered for five
# seconds, and shows it for up to an hour while a store is away. It asks the stores by way of the fronts. Write their addresses.

import directors;
import std;

probe front {
    .url = "/_/front";
    .interval = 1s;
    .timeout = 1s;
    .window = 2;
    .threshold = 1;
    .initial = 1;
}
backend front1 {
    .host = "10.77.0.11";
    .port = "8100";
    .connect_timeout = 1s;
    .probe = front;
}
backend front2 {
    .host = "10.77.0.12";
    .port = "8100";
    .connect_timeout = 1s;
    .probe = front;
}

# Who may empty the cache: the fronts, which ask whom they do it for, and machines beside them.
acl may_purge {
    "10.77.0.0"/24;
}

sub vcl_init {
    new fronts = directors.round_robin();
    fronts.add_backend(front1);
    fronts.add_backend(front2);
}

sub vcl_recv {
    set req.backend_hint = fronts.backend();
    if (req.url == "/_/cache") {
        return (synth(200));
    }
    set req.http.Host = regsub(std.tolower(req.http.Host), ":[0-9]*$", "");
    if (req.http.Host !~ "^[a-z0-9.-]+$") {
        return (synth(404));
    }
    if (req.method == "PURGE") {
        if (client.ip !~ may_purge) {
            return (synth(403));
        }
        ban("obj.http.Docs-Host == " + req.http.Host);
        return (synth(200));
    }
    # Nothing of a reader with a pass is kept, though no front sends such a request here.
    if (req.http.Docs-Pass || req.http.Cookie ~ "docs_pass=" || (req.method != "GET" && req.method != "HEAD")) {
        return (pass);
    }
    unset req.http.Cookie;
    unset req.http.Authorization;
    # A client may ask for what is there now, as bin/publish does when it reads back.
    if (req.http.Cache-Control ~ "no-cache") {
        set req.hash_always_miss = true;
    }
    set req.grace = 0s;
    if (req.http.Docs-Store-Away) {
        set req.grace = 1h;
        set req.hash_ignore_busy = true;
    }
    return (hash);
}

sub vcl_backend_fetch {
    # A connection that was kept to a machine that is gone would be waited on.
    set bereq.http.Connection = "close";
}

sub vcl_backend_response {
    # (what is kept already stays)
    if (beresp.status >= 500) {
        return (abandon);
    }
    set beresp.http.Docs-Host = bereq.http.Host;
    if (bereq.uncacheable || (beresp.status != 200 && beresp.status != 301 && beresp.status != 302 && beresp.status != 404)) {
        set beresp.uncacheable = true;
        set beresp.ttl = 0s;
        return (deliver);
    }
    set beresp.ttl = 5s;
    set beresp.grace = 1h;
    if (beresp.http.Content-Type ~ "^(text/|application/(json|xml)|image/svg)") {
        set beresp.do_gzip = true;
    }
    return (deliver);
}

sub vcl_backend_error {
    # The other front is asked.
    if (bereq.retries == 0) {
        return (retry);
    }
    return (abandon);
}

sub vcl_deliver {
    unset resp.http.Docs-Host;
    unset resp.http.Via;
    unset resp.http.X-Varnish;
}

sub vcl_synth {
    # A store failed that was not known to be away: what is kept is shown, if there is any.
    if (resp.status == 503 && !req.http.Docs-Store-Away && !req.hash_always_miss) {
        set req.http.Docs-Store-Away = "1";
        return (restart);
    }
    set resp.http.Content-Type = "text/plain";
    if (resp.status == 503) {
        set resp.http.Retry-After = "2";
    }
    synthetic(resp.status + " " + resp.reason);
    return (deliver);
}
