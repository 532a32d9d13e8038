// Each function of some files of JavaScript that has more branches than a number, a line each, by
// TypeScript's own reader: `node branches.js MOST FILE ..`. A branch is counted as test_style.py
// counts those of Python: one, and one more for each fork, a switch once, and for each further part
// of a condition.
const { readFileSync } = require('fs');
const { basename } = require('path');
const { createSourceFile, forEachChild, isFunctionLike, ScriptTarget, SyntaxKind } = require(
  'typescript');

const FORKS = new Set([
  SyntaxKind.IfStatement, SyntaxKind.ForStatement, SyntaxKind.ForOfStatement,
  SyntaxKind.ForInStatement, SyntaxKind.WhileStatement, SyntaxKind.DoStatement,
  SyntaxKind.CatchClause, SyntaxKind.ConditionalExpression, SyntaxKind.SwitchStatement,
  SyntaxKind.AmpersandAmpersandToken, SyntaxKind.BarBarToken, SyntaxKind.QuestionQuestionToken,
  SyntaxKind.AmpersandAmpersandEqualsToken, SyntaxKind.BarBarEqualsToken,
  SyntaxKind.QuestionQuestionEqualsToken,
]);

function forks(node) {
  let count = FORKS.has(node.kind) ? 1 : 0;
  forEachChild(node, (child) => { count += forks(child); });
  return count;
}

function look(node, source, most, file) {
  if (isFunctionLike(node) && 1 + forks(node) > most) {
    const { line } = source.getLineAndCharacterOfPosition(node.getStart());
    console.log(`${basename(file)}:${line + 1} ${node.name?.getText() ?? 'a function'}`
      + ` has ${1 + forks(node)}`);
  }
  forEachChild(node, (child) => look(child, source, most, file));
}

const [most, ...files] = process.argv.slice(2);
for (const file of files) {
  const source = createSourceFile(file, readFileSync(file, 'utf8'), ScriptTarget.ES2022, true);
  look(source, source, Number(most), file);
}
