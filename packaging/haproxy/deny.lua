-- What is answered to who is no user, as the server itself answers it.
core.register_service("deny", "tcp", function(applet)
    applet:send("ERR 01 DENIED\n")
end)
