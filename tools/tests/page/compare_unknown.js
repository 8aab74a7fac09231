/* The page of compare: the button that shows only views of which nothing is known. */
async () => {
  const button = document.querySelector('#unknown button'), all = [button.textContent, data.views.length];
  const seen = () => data.views.filter((_, k) => !document.getElementById('v' + k).hidden).map(it => it.view);
  button.click();
  all.push(seen());
  button.click();
  all.push(seen().length);
  return all;
}
