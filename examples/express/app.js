// The counter of examples/counter as an application of Express, behind `npm install express`.
//
//     node app.js PORT SIDECAR_PORT
const express = require("express");

const [port, sidecar] = process.argv.slice(2);

// What the sidecar answers about the state of a counter.
async function ask(method, path, body) {
    const reply = await fetch(`http://127.0.0.1:${sidecar}/v1.0/actors/counter/${path}`, {
        method,
        body: body && JSON.stringify(body),
    });
    if (!reply.ok) throw new Error(`the sidecar answered ${reply.status}: ${await reply.text()}`);
    return reply.status === 200 ? reply.json() : null;
}

async function call(actor, method) {
    let count = (await ask("GET", `${actor}/state/count`)) ?? 0;
    if (method === "increment" || method.startsWith("remind/")) {    // no other turn of this actor comes between
        count += 1;
        await ask("PUT", `${actor}/state`, [{ operation: "upsert", request: { key: "count", value: count } }]);
    }
    return { count };
}

const app = express();
app.use(express.raw({ type: () => true, limit: "4mb" }));
app.get("/dapr/config", (_, reply) => reply.json({ entities: ["counter"], actorIdleTimeout: "10s" }));
app.put(/^\/actors\/counter\/([^/]+)\/method\/(.+)$/, (request, reply, next) => {
    call(encodeURIComponent(request.params[0]), request.params[1]).then((answer) => reply.json(answer), next);
});
app.delete("/actors/counter/:actor", (_, reply) => reply.end());
app.listen(Number(port), "127.0.0.1");
