export { Client, ClientError } from "./client.js";
export { Engine } from "./engine.js";
export { modules } from "./modules.js";
export { answerAll, programOf, suspendingProgramOf } from "./program.js";
