// Questions to the server: each has a name by which it can be stopped.
const key = new URLSearchParams(location.search).get('key');
export const framed = new URLSearchParams(location.search).has('frame');
const asked = new Set();
let count = 0;
const page = Math.random().toString(36).slice(2, 10);

async function post(path, data) {
  const headers = { 'Content-Type': 'application/json' };
  if (key) headers['X-Key'] = key;
  const response = await fetch(path, { method: 'POST', headers, body: JSON.stringify(data) });
  let told;
  try {
    told = await response.json();
  } catch {
    told = { error: `the server answered with status ${response.status}` };
  }
  if (!response.ok) throw new Error(told.error || `status ${response.status}`);
  return told;
}

// The answer to a question, or one with `stopped` where it was stopped.
export async function ask(word, data, effort = 0) {
  const id = `${page}-${count += 1}`;
  asked.add(id);
  try {
    return await post(`ask/${word}`, { ...data, id, effort });
  } catch (error) {
    if (error instanceof TypeError) throw new Error('cg-explore doesn’t answer: is it still running?');
    throw error;
  } finally {
    asked.delete(id);
  }
}

export function tell(word, data) {
  return post(`ask/${word}`, data);
}

// Stops all questions that are under way.
export function stopAll() {
  const names = [...asked];
  return Promise.all(names.map((id) => post('ask/stop', { id }).catch(() => null)));
}
